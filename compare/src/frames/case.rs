//! One word with registers and a window, that a step is asked for.

use super::machine::Machine;
use crate::ffi::frame::{Registers, Step, Window};
use crate::ffi::unwind::Unwound;
use crate::model::frame::step;
use std::fmt::{Display, Formatter, Result};

/// What lies around a window in memory.
const AROUND: [u8; 8] = [0xa5; 8];

#[derive(Clone)]
pub struct Case<const N: usize> {
    pub word: u32,
    pub registers: Registers<N>,
    pub base: u64,
    pub bytes: Vec<u8>,
}

impl<const N: usize> Case<N> {
    pub fn window(&self) -> Window<'_> {
        Window {
            base: self.base,
            bytes: &self.bytes,
        }
    }

    pub fn ours(&self, machine: &Machine<N>) -> Step<N> {
        self.placed(|window| (machine.step)(self.word, self.registers, window))
    }

    /// A lookup of an address, which stands for the word, and then the step.
    pub fn unwind(&self, machine: &Machine<N>, section: &[u8], address: u32) -> Unwound<N> {
        self.placed(|window| (machine.unwind)(section, address, self.registers, window))
    }

    /// Has the window lie in the midst of other bytes, at any alignment.
    pub fn placed<A>(&self, ask: impl FnOnce(Window) -> A) -> A {
        let place = (self.word as usize + self.bytes.len()) % AROUND.len();
        let memory = [&AROUND[..place], &self.bytes, &AROUND].concat();
        let bytes = &memory[place..place + self.bytes.len()];
        let base = self.base;
        ask(Window { base, bytes })
    }

    pub fn model(&self, machine: &Machine<N>) -> Step<N> {
        step((machine.frame)(self.word), self.registers, self.window())
    }

    /// The answer that refuses the step.
    pub fn refused(&self, refusal: u32, value: u32) -> Step<N> {
        Step {
            refusal,
            value,
            registers: self.registers,
        }
    }
}

/// The answer that gives a caller.
pub fn returned<const N: usize>(registers: Registers<N>) -> Step<N> {
    Step {
        refusal: 0,
        value: 0,
        registers,
    }
}

impl<const N: usize> Display for Case<N> {
    fn fmt(&self, f: &mut Formatter) -> Result {
        let (word, base, length) = (self.word, self.base, self.bytes.len());
        let registers = self.registers;
        write!(
            f,
            "word {word:#010x}, {length} bytes at {base:#x}, {registers:?}"
        )
    }
}
