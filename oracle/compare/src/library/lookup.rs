//! The chunks that name the sources of a list.

use super::{kept, shown, Library};
use crate::view::View;
use library::*;

impl Library {
    pub(super) fn looked_up(&self, bytes: &[u8], ssrcs: &[u32], before: &[u8]) -> Option<View> {
        let (s, list) = (self.lend(bytes), self.lend(ssrcs));
        let mut answers = self.lend(before);
        let lookup = rtcp_sdes_lookup(&s, &list, &mut answers)?;
        let mut view = shown(lookup, |view| view.number("visits", lookup.visits));
        view.bytes("answers", &answers);
        kept(&mut view, &s, bytes);
        kept(&mut view, &list, ssrcs);
        Some(view)
    }
}
