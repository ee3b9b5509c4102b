//! What the numbers in x86_64's words name, from docs/FORMAT.md, 7, alone.

use super::bits;
use crate::ffi::{RegisterName, ABSENT, REGISTER, UNKNOWN};

/// DWARF's numbers of the registers 1 to 6.
const DWARF: [u32; 6] = [3, 12, 13, 14, 15, 6];

#[derive(Clone, Copy)]
pub enum Named {
    Absent,
    /// 1 rbx, 2 to 5 r12 to r15, 6 rbp.
    Register(usize),
    Unknown(u32),
}

impl Named {
    pub fn by(number: u32) -> Self {
        match number {
            0 => Named::Absent,
            1..=6 => Named::Register(number as usize),
            _ => Named::Unknown(number),
        }
    }

    /// The three cases in the C interface's shape.
    pub fn told(self) -> RegisterName {
        let (state, number, dwarf_number) = match self {
            Named::Absent => (ABSENT, 0, 0),
            Named::Register(register) => (REGISTER, register as u32, DWARF[register - 1]),
            Named::Unknown(number) => (UNKNOWN, number, 0),
        };
        RegisterName {
            state,
            number,
            dwarf_number,
        }
    }
}

/// A frame-based word's, field 0 first.
pub fn fields(word: u32) -> [Named; 5] {
    [0, 3, 6, 9, 12].map(|at| Named::by(bits(word, at, at + 2)))
}
