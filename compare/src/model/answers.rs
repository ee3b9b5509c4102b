//! Answers in the C interface's shapes.

use super::{Function, Refusal};
use crate::ffi::section::{Cursor, FillAnswer, LookupAnswer, NextAnswer, FOUND, NONE, REFUSED};

/// Outcome, refusal and function of an answer, with zeros for what it has not.
fn parts(answer: Result<Option<Function>, Refusal>) -> (u8, Refusal, Function) {
    match answer {
        Ok(None) => (NONE, 0, Function::default()),
        Ok(Some(function)) => (FOUND, 0, function),
        Err(refusal) => (REFUSED, refusal, Function::default()),
    }
}

pub fn looked_up(answer: Result<Option<Function>, Refusal>, probes: u8) -> LookupAnswer {
    let (outcome, refusal, function) = parts(answer);
    LookupAnswer {
        start: function.start,
        end: function.end,
        opcode: function.opcode,
        page: function.page,
        index: function.index,
        origin: function.origin,
        probes,
        outcome,
        refusal,
    }
}

/// The six numbers of a batch's answer.
pub fn batched(answer: LookupAnswer) -> [u32; 6] {
    let probes = 256 * u32::from(answer.probes);
    let outcome = 65_536 * u32::from(answer.outcome);
    let refusal = 16_777_216 * u32::from(answer.refusal);
    [
        answer.start,
        answer.end,
        answer.opcode,
        answer.page,
        answer.index,
        u32::from(answer.origin) + probes + outcome + refusal,
    ]
}

pub fn stepped(answer: Result<Option<Function>, Refusal>, (page, index): Cursor) -> NextAnswer {
    let (outcome, refusal, function) = parts(answer);
    NextAnswer {
        start: function.start,
        end: function.end,
        opcode: function.opcode,
        page,
        index,
        function_page: function.page,
        function_index: function.index,
        origin: function.origin,
        outcome,
        refusal,
    }
}

pub fn filled(functions: usize, (page, index): Cursor, outcome: u16, refusal: u16) -> FillAnswer {
    FillAnswer {
        functions,
        page,
        index,
        outcome,
        refusal,
    }
}
