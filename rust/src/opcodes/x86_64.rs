//! Words of x86_64.

#![forbid(unsafe_code)]

use super::Named;
use crate::ffi;
use std::fmt::{Display, Formatter, Result};

/// A register that a word can list.
#[derive(Copy, Clone, Debug, PartialEq, Eq, Hash)]
#[allow(missing_docs)]
pub enum RegisterNameX86_64 {
    Rbx,
    R12,
    R13,
    R14,
    R15,
    Rbp,
}

/// By their numbers, from 1 on.
const REGISTERS: [RegisterNameX86_64; RegisterNameX86_64::COUNT] = [
    RegisterNameX86_64::Rbx,
    RegisterNameX86_64::R12,
    RegisterNameX86_64::R13,
    RegisterNameX86_64::R14,
    RegisterNameX86_64::R15,
    RegisterNameX86_64::Rbp,
];

impl RegisterNameX86_64 {
    /// How many registers there are.
    pub const COUNT: usize = 6;

    /// What a number names: 0 nothing, 1 to 6 a register. Any other is unknown. In the original it
    /// is an `Option`, `None` for both.
    pub fn parse(n: u8) -> Named<Self> {
        let answer = ffi::register_x86_64(n);
        named(answer.state, answer.number as u8)
    }

    /// The register with a number from 1 to 6.
    fn numbered(n: u8) -> Self {
        REGISTERS[usize::from(n) - 1]
    }

    /// DWARF's number for the register.
    pub fn dwarf_number(&self) -> u8 {
        ffi::register_x86_64(*self as u8 + 1).dwarf_number as u8
    }

    /// The same, after "reg".
    pub fn dwarf_name(&self) -> &'static str {
        match self {
            RegisterNameX86_64::Rbx => "reg3",
            RegisterNameX86_64::R12 => "reg12",
            RegisterNameX86_64::R13 => "reg13",
            RegisterNameX86_64::R14 => "reg14",
            RegisterNameX86_64::R15 => "reg15",
            RegisterNameX86_64::Rbp => "reg6",
        }
    }

    fn name(&self) -> &'static str {
        match self {
            RegisterNameX86_64::Rbx => "rbx",
            RegisterNameX86_64::R12 => "r12",
            RegisterNameX86_64::R13 => "r13",
            RegisterNameX86_64::R14 => "r14",
            RegisterNameX86_64::R15 => "r15",
            RegisterNameX86_64::Rbp => "rbp",
        }
    }
}

/// What a word of x86_64 says.
#[derive(Clone, Debug, PartialEq, Eq)]
pub enum OpcodeX86_64 {
    /// Nothing.
    Null,
    /// The frame has a frame pointer.
    FrameBased {
        /// How far the slot of field 0 lies below rbp.
        stack_offset_in_bytes: u16,
        /// The word's five fields, in its own order: place k has field k, which names the register
        /// whose slot lies 8k above field 0's. This is the original's order turned round: there,
        /// and here before 0.6.0, the highest field comes first, and is `None` if it is 0 or 7.
        ///
        /// A word with a field that is unknown, or that names rbp, has no rule and no step: it is
        /// refused with 24.
        saved_regs: [Named<RegisterNameX86_64>; 5],
    },
    /// The frame has no frame pointer, and the word has its size.
    FramelessImmediate {
        /// From the stack pointer to CFA.
        stack_size_in_bytes: u16,
        /// The registers, in the order in which they are popped; `None`s follow, which are absent.
        /// No place is ever unknown: a permutation lists registers alone.
        saved_regs: [Option<RegisterNameX86_64>; 6],
    },
    /// The frame has no frame pointer, and its size stands in the function's code.
    FramelessIndirect {
        /// Where in the function a little-endian `u32` has the size.
        immediate_offset_from_function_start: u8,
        /// What is to be added to it.
        stack_adjust_in_bytes: u8,
        /// The registers, as in [`FramelessImmediate`](OpcodeX86_64::FramelessImmediate).
        saved_regs: [Option<RegisterNameX86_64>; 6],
    },
    /// The frame is described in `__eh_frame`.
    Dwarf {
        /// Where: the low 24 bits.
        eh_frame_fde: u32,
    },
    /// Frameless, with a permutation that is none.
    InvalidFrameless,
    /// Of a kind that is not known.
    UnrecognizedKind(u8),
}

impl OpcodeX86_64 {
    /// Reads a word.
    pub fn parse(opcode: u32) -> Self {
        let word = ffi::parse_x86_64(opcode);
        match word.answer {
            0 => OpcodeX86_64::Null,
            1 => OpcodeX86_64::FrameBased {
                stack_offset_in_bytes: word.value as u16,
                saved_regs: fields(word.fields, word.field_states),
            },
            2 => OpcodeX86_64::FramelessImmediate {
                stack_size_in_bytes: word.value as u16,
                saved_regs: popped(word.popped_regs),
            },
            3 => OpcodeX86_64::FramelessIndirect {
                immediate_offset_from_function_start: word.value as u8,
                stack_adjust_in_bytes: word.stack_adjust_in_bytes,
                saved_regs: popped(word.popped_regs),
            },
            4 => OpcodeX86_64::Dwarf {
                eh_frame_fde: word.value,
            },
            5 => OpcodeX86_64::InvalidFrameless,
            _ => OpcodeX86_64::UnrecognizedKind(word.value as u8),
        }
    }
}

/// By the library's state of a number: it is 1 for 1 to 6 alone.
fn named(state: u32, number: u8) -> Named<RegisterNameX86_64> {
    match state {
        0 => Named::Absent,
        1 => Named::Register(RegisterNameX86_64::numbered(number)),
        _ => Named::Unknown(number),
    }
}

/// Field k and its state are bits 3k to 3k + 2.
fn fields(numbers: u16, states: u16) -> [Named<RegisterNameX86_64>; 5] {
    let field = |of: u16, k: u16| of >> (3 * k) & 7;
    [0, 1, 2, 3, 4].map(|k| named(field(states, k).into(), field(numbers, k) as u8))
}

/// A list in which 0 is absent, and all else a register.
fn popped(numbers: [u8; 6]) -> [Option<RegisterNameX86_64>; 6] {
    numbers.map(|n| match n {
        0 => None,
        _ => Some(RegisterNameX86_64::numbered(n)),
    })
}

impl Display for OpcodeX86_64 {
    fn fmt(&self, f: &mut Formatter) -> Result {
        match self {
            OpcodeX86_64::Null => write!(f, "null"),
            OpcodeX86_64::FrameBased {
                stack_offset_in_bytes,
                saved_regs,
            } => {
                write!(f, "frame-based, {stack_offset_in_bytes} below rbp")?;
                list(f, *saved_regs)
            }
            OpcodeX86_64::FramelessImmediate {
                stack_size_in_bytes,
                saved_regs,
            } => {
                write!(f, "frameless, {stack_size_in_bytes} bytes")?;
                list(f, saved_regs.map(listed))
            }
            OpcodeX86_64::FramelessIndirect {
                immediate_offset_from_function_start: place,
                stack_adjust_in_bytes: more,
                saved_regs,
            } => {
                write!(f, "frameless, size at {place} in the code and {more} more")?;
                list(f, saved_regs.map(listed))
            }
            OpcodeX86_64::Dwarf { eh_frame_fde } => write!(f, "__eh_frame at {eh_frame_fde:#x}"),
            OpcodeX86_64::InvalidFrameless => write!(f, "frameless, not a permutation"),
            OpcodeX86_64::UnrecognizedKind(kind) => write!(f, "unknown kind {kind}"),
        }
    }
}

fn listed(register: Option<RegisterNameX86_64>) -> Named<RegisterNameX86_64> {
    register.map_or(Named::Absent, Named::Register)
}

/// What is absent is not printed; what is unknown is.
fn list<const N: usize>(f: &mut Formatter, list: [Named<RegisterNameX86_64>; N]) -> Result {
    let mut before = ":";
    for named in list {
        match named {
            Named::Absent => continue,
            Named::Register(register) => write!(f, "{before} {}", register.name())?,
            Named::Unknown(number) => write!(f, "{before} unknown {number}")?,
        }
        before = "";
    }
    Ok(())
}
