//! Histories of a source: packets and blocks, each with the state that the last
//! returned, through the C functions and through both readings of the model.

use crate::generate::Beginning;
use crate::library::{new_reception, take};
use crate::reception::numbers;
use crate::text::event as text;
use model::*;

/// A source as every side has it.
pub struct Sides {
    /// Nothing where the library does not have the functions.
    library: Option<Reception>,
    pub words: Reception,
    /// Nothing where the history started from a state without exact counts.
    pub exact: Option<ExactReception>,
}

impl Sides {
    pub fn of(beginning: &Beginning) -> Result<Sides, String> {
        let words = beginning.words();
        let library = match beginning {
            Beginning::New(seq) => new_reception(*seq),
            _ => new_reception(0).map(|_| words),
        };
        if library.is_some_and(|library| library != words) {
            return Err(format!("{beginning:?} gave {library:?}, wanted {words:?}"));
        }
        Ok(Sides {
            library,
            words,
            exact: beginning.exact(),
        })
    }

    /// Whether the exact reading has the state, and order 3's supposition holds.
    pub fn supposed(&self) -> bool {
        self.exact.is_some_and(|exact| exact.supposed())
    }

    /// What all sides reply to an event, or how they differ. The C functions reply and
    /// leave what the model does; so does the exact reading, where it is supposed to.
    pub fn take(&mut self, event: Event) -> Result<Reply, String> {
        let before = self.words;
        let reply = self.words.take(event);
        let asked = || format!("{} on {before:?}", text(&event));
        if let Some(state) = self.library {
            let (after, shown) = take(&state, event).ok_or("a function is missing")?;
            if after != self.words || shown != numbers(&reply) {
                let wanted = (self.words, numbers(&reply));
                return Err(format!(
                    "{} gave {:?}, wanted {wanted:?}",
                    asked(),
                    (after, shown)
                ));
            }
            self.library = Some(after);
        }
        if let Some(exact) = &mut self.exact {
            let exactly = exact.take(event);
            let words = exact.in_words().unwrap_or(self.words);
            if exact.supposed() && (exactly, words) != (reply, self.words) {
                let wanted = (exactly, words);
                return Err(format!("{} gave {reply:?}, exactly {wanted:?}", asked()));
            }
        }
        Ok(reply)
    }
}
