//! The combined call (docs/FORMAT.md, 10.4): a lookup, then a step by the word found.

use super::frame::{step, Frame, Refused};
use crate::ffi::frame::{Registers, Step, Window};
use crate::ffi::section::{LookupAnswer, FOUND, NONE};
use crate::ffi::unwind::Unwound;

/// By what a lookup gave: its refusal, 20 for none, or the step's answer.
pub fn unwind<const N: usize>(
    found: LookupAnswer,
    frame: fn(u32) -> Result<Frame<N>, Refused>,
    registers: Registers<N>,
    window: Window,
) -> Unwound<N> {
    let frame = match found.outcome {
        NONE => Err((20, 0)),
        FOUND => frame(found.opcode),
        _ => Err((found.refusal.into(), 0)),
    };
    let stepped = step(frame, registers, window);
    unwound(stepped, found.probes.into())
}

/// A step's answer after so many probes.
pub fn unwound<const N: usize>(stepped: Step<N>, probes: u32) -> Unwound<N> {
    Unwound {
        refusal: stepped.refusal,
        value: stepped.value,
        probes,
        registers: stepped.registers,
    }
}
