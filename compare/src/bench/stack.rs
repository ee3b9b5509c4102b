//! One stack for all steps that are measured, so that reading it costs what a hot one costs.

use crate::ffi::frame::{Registers, Window};
use crate::frames::machine::Machine;
use crate::frames::steps::random_bytes;
use crate::model::frame::step;
use crate::random::Random;

/// Where every register points, and the bytes of the window on each side of it.
const ANCHOR: u64 = 0x7ff0_0000_8000;
const SIDE: u64 = 2_304;

/// Registers and a window that hold the frame of every sound word.
pub struct Stack<const N: usize> {
    pub registers: Registers<N>,
    bytes: Vec<u8>,
}

impl<const N: usize> Stack<N> {
    pub fn new() -> Self {
        Stack {
            registers: Registers {
                pc: 0,
                sp: ANCHOR,
                saved: [ANCHOR; N],
            },
            bytes: random_bytes(&mut Random::new(28), 2 * SIDE as usize),
        }
    }

    pub fn window(&self) -> Window<'_> {
        Window {
            base: ANCHOR - SIDE,
            bytes: &self.bytes,
        }
    }

    /// Whether the word is sound, and ours steps out of its frame as the model does.
    pub fn steps(&self, machine: &Machine<N>, word: u32) -> bool {
        let ours = (machine.step)(word, self.registers, self.window());
        let model = step((machine.frame)(word), self.registers, self.window());
        ours.refusal == 0 && ours == model
    }
}
