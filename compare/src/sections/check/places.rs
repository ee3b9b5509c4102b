//! The place of a function that a lookup found, as a cursor.

use super::Checks;
use crate::ffi::section::{Cursor, LookupAnswer, NextAnswer, FOUND, REFUSED};
use crate::model::{Refusal, Section};

impl Checks {
    /// At its page and index stands that very function, or 11 where the model says that the page's
    /// local opcodes lie outside: a lookup of a global opcode doesn't ask for them.
    pub(super) fn place(
        &mut self,
        input: impl FnOnce() -> String,
        section: &Result<Section, Refusal>,
        found: LookupAnswer,
        next: impl FnOnce(Cursor) -> NextAnswer,
    ) {
        if found.outcome != FOUND {
            return;
        }
        let Ok(section) = section else {
            return;
        };
        let expected = if section.lacks_local_opcodes(found.page) {
            NextAnswer {
                page: found.page + 1,
                outcome: REFUSED,
                refusal: 11,
                ..NextAnswer::default()
            }
        } else {
            same_function(found)
        };
        let answer = next((found.page, found.index));
        self.places.check(input, answer, expected);
    }
}

/// The function found, with the cursor after it.
fn same_function(found: LookupAnswer) -> NextAnswer {
    NextAnswer {
        start: found.start,
        end: found.end,
        opcode: found.opcode,
        page: found.page,
        index: found.index + 1,
        function_page: found.page,
        function_index: found.index,
        origin: found.origin,
        outcome: FOUND,
        refusal: 0,
    }
}
