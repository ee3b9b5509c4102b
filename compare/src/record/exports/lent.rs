//! Lists lent to write: 60 numbers that are 7 before the call, of which the first ones are lent.

use super::calls::case;
use crate::ffi::section::{Cursor, FillAnswer, LookupAnswer};
use crate::model::{self, batched, Refusal, Section};

/// Numbers of a list, and of a batch's answer.
const LIST: usize = 60;
pub const ANSWER: usize = 6;

/// What a call left.
pub struct Left {
    pub list: [u32; LIST],
    pub cases: Vec<u32>,
}

impl Left {
    fn new() -> Self {
        Left {
            list: [7; LIST],
            cases: Vec::new(),
        }
    }

    /// The numbers after those of the answer itself.
    pub fn after<const N: usize>(&self, answer: [u64; N]) -> Vec<u64> {
        let list = self.list.iter().copied().map(u64::from);
        answer.into_iter().chain(list).collect()
    }
}

pub fn fill(section: &Result<Section, Refusal>, cursor: Cursor, room: usize) -> (FillAnswer, Left) {
    let mut left = Left::new();
    let answer = model::fill(section, cursor, &mut left.list[..room]);
    left.cases.push(case(answer.outcome, answer.refusal));
    (answer, left)
}

/// How many were answered comes first.
pub fn batch(answers: &[LookupAnswer], room: usize) -> (usize, Left) {
    let mut left = Left::new();
    let places = left.list[..room].chunks_exact_mut(ANSWER);
    let answered = places.len().min(answers.len());
    for (place, answer) in places.zip(answers) {
        place.copy_from_slice(&batched(*answer));
        left.cases.push(case(answer.outcome, answer.refusal));
    }
    (answered, left)
}
