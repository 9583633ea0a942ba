//! Lists filled with all parts at once.

use super::{broken, kept, shown, Library};
use crate::view::{Value, View};
use library::*;
use model::{Kind, Listing};

/// What a call that fills lists answers, and the lists after it.
type Filled = (RtcpWritten, Vec<Vec<i128>>);

impl Library {
    pub(super) fn listed(
        &self,
        listing: Listing,
        bytes: &[u8],
        before: &[Vec<i128>],
    ) -> Option<View> {
        let s = self.lend(bytes);
        let filled = match listing {
            Listing::Blocks(Kind::Sr) => {
                self.fill_blocks(before, |f, l, w| rtcp_sr_report_blocks(&s, f, l, w))?
            }
            Listing::Blocks(_) => {
                self.fill_blocks(before, |f, l, w| rtcp_rr_report_blocks(&s, f, l, w))?
            }
            Listing::Items => {
                let mut rows = self.lend(&narrow(&before[0]));
                (rtcp_sdes_items(&s, &mut rows)?, vec![wide(&rows)])
            }
            Listing::Packets => {
                let mut rows = self.lend(&narrow(&before[0]));
                (rtcp_compound_packets(&s, &mut rows)?, vec![wide(&rows)])
            }
        };
        let (written, lists) = &filled;
        let mut view = shown(*written, |view| view.number("listed", written.size));
        for list in lists {
            view.put("list", Value::Numbers(list.clone()));
        }
        if let Listing::Blocks(kind) = listing {
            if self.read(kind, &s, before)? != filled {
                broken(&mut view, "a report that is read otherwise with its blocks");
            }
        }
        kept(&mut view, &s, bytes);
        Some(view)
    }

    /// A report and its blocks in one call, as an answer of the call that fills the lists. One whose numbers are not those of the report by itself
    /// has no size that any list has.
    fn read(&self, kind: Kind, s: &[u8], before: &[Vec<i128>]) -> Option<Filled> {
        self.fill_blocks(before, |f, l, w| {
            let (written, is_parsed) = match kind {
                Kind::Sr => {
                    let sr = rtcp_sr_read(s, f, l, w)?;
                    (written(sr.head(), sr.n_reports), sr == rtcp_sr_parse(s)?)
                }
                _ => {
                    let rr = rtcp_rr_read(s, f, l, w)?;
                    (written(rr.head(), rr.n_reports), rr == rtcp_rr_parse(s)?)
                }
            };
            let size = if written.number == 0 && !is_parsed {
                u64::MAX
            } else {
                written.size
            };
            Some(RtcpWritten { size, ..written })
        })
    }

    /// Lends the three lists of blocks.
    fn fill_blocks(
        &self,
        before: &[Vec<i128>],
        fill: impl FnOnce(&mut [u8], &mut [i32], &mut [u32]) -> Option<RtcpWritten>,
    ) -> Option<Filled> {
        let mut fractions = self.lend(&narrow(&before[0]));
        let mut losses = self.lend(&narrow(&before[1]));
        let mut words = self.lend(&narrow(&before[2]));
        let written = fill(&mut fractions, &mut losses, &mut words)?;
        Some((written, vec![wide(&fractions), wide(&losses), wide(&words)]))
    }
}

/// The numbers of a list as wide as C has them.
fn narrow<T: TryFrom<i128>>(numbers: &[i128]) -> Vec<T> {
    let narrow = |number: &i128| T::try_from(*number).ok().expect("a number of that list");
    numbers.iter().map(narrow).collect()
}

fn wide<T: Copy + Into<i128>>(numbers: &[T]) -> Vec<i128> {
    numbers.iter().map(|number| (*number).into()).collect()
}

fn written(head: Head, n_reports: u64) -> RtcpWritten {
    RtcpWritten {
        size: n_reports,
        ..RtcpWritten::bare(head)
    }
}
