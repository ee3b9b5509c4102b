//! A question on a section and its answer as plain numbers, as they are recorded.

use crate::ffi::section::{
    self as ours, Cursor, LookupAnswer, NextAnswer, ParseAnswer, RangeAnswer, FOUND, REFUSED,
};
use crate::model::{self, Refusal, Section};

#[derive(Clone, Copy, Debug, PartialEq, Eq)]
pub enum Question {
    Lookup(u32),
    Next(Cursor),
    Parse,
    Range,
    WellFormed,
}

/// Outcome, refusal, and eight numbers more; zeros for what the answer has not.
pub type Answer = [u32; 10];

impl Question {
    pub fn ours(self, section: &[u8]) -> Answer {
        match self {
            Question::Lookup(address) => lookup(ours::lookup(section, address)),
            Question::Next(cursor) => next(ours::next(section, cursor)),
            Question::Parse => parse(ours::parse(section)),
            Question::Range => range(ours::address_range(section)),
            Question::WellFormed => well_formed(ours::is_well_formed(section)),
        }
    }

    pub fn model(self, section: &[u8]) -> Answer {
        let parsed: Result<Section, Refusal> = Section::parse(section);
        match self {
            Question::Lookup(address) => lookup(model::lookup(&parsed, address)),
            Question::Next(cursor) => next(model::next(&parsed, cursor)),
            Question::Parse => parse(model::parse(section)),
            Question::Range => range(model::address_range(&parsed)),
            Question::WellFormed => well_formed(model::is_well_formed(&parsed).into()),
        }
    }
}

/// Start, end, opcode, page, index, origin, probes.
fn lookup(answer: LookupAnswer) -> Answer {
    [
        answer.outcome.into(),
        answer.refusal.into(),
        answer.start,
        answer.end,
        answer.opcode,
        answer.page,
        answer.index,
        answer.origin.into(),
        answer.probes.into(),
        0,
    ]
}

/// Start, end, opcode, page, index, origin, and the cursor for the next call.
fn next(answer: NextAnswer) -> Answer {
    [
        answer.outcome.into(),
        answer.refusal.into(),
        answer.start,
        answer.end,
        answer.opcode,
        answer.function_page,
        answer.function_index,
        answer.origin.into(),
        answer.page,
        answer.index,
    ]
}

/// The two lists.
pub fn parse(ParseAnswer { refusal, lists }: ParseAnswer) -> Answer {
    zeros_after([
        outcome(refusal),
        refusal,
        lists.global_opcodes_offset,
        lists.global_opcodes_len,
        lists.pages_offset,
        lists.pages_len,
    ])
}

/// Start and end.
fn range(answer: RangeAnswer) -> Answer {
    let RangeAnswer {
        refusal,
        start,
        end,
    } = answer;
    zeros_after([outcome(refusal), refusal, start, end])
}

fn well_formed(answer: u8) -> Answer {
    zeros_after([answer.into()])
}

/// An answer by its first numbers.
pub fn zeros_after<const N: usize>(first: [u32; N]) -> Answer {
    let mut answer = Answer::default();
    answer[..N].copy_from_slice(&first);
    answer
}

fn outcome(refusal: u32) -> u32 {
    let outcome = if refusal == 0 { FOUND } else { REFUSED };
    outcome.into()
}
