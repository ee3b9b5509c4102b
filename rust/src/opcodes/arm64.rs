//! Words of arm64.

#![forbid(unsafe_code)]

use crate::ffi;
use std::fmt::{Display, Formatter, Result};

/// What a word of arm64 says: as the original reads it, but for the d pairs of frame-based words.
///
/// By frameless words compilers mean more; the variant says what, and
/// [`frames`](crate::frames#where-real-code-differs) what it does to a step.
#[derive(Copy, Clone, Debug, PartialEq, Eq)]
pub enum OpcodeArm64 {
    /// Nothing.
    Null,
    /// The frame has no frame pointer; the return address is in x30. The low 12 bits are not read,
    /// though compilers mark pairs there that the function stored.
    Frameless {
        /// From the stack pointer to CFA.
        stack_size_in_bytes: u16,
    },
    /// The frame is described in `__eh_frame`.
    Dwarf {
        /// Where: the low 24 bits.
        eh_frame_fde: u32,
    },
    /// The frame has a frame pointer. In the word the x pairs are bits 0 to 4, x19/x20 lowest, and
    /// the d pairs bits 8 to 11, d8/d9 lowest, as compilers have them; bits 5 to 7 are not read.
    /// The original has the d pairs at bits 5 to 8: see [the crate](crate#what-differs-in-answers).
    #[allow(missing_docs)]
    FrameBased {
        saved_reg_pair_count: u8,
        d14_and_d15_saved: bool,
        d12_and_d13_saved: bool,
        d10_and_d11_saved: bool,
        d8_and_d9_saved: bool,
        x27_and_x28_saved: bool,
        x25_and_x26_saved: bool,
        x23_and_x24_saved: bool,
        x21_and_x22_saved: bool,
        x19_and_x20_saved: bool,
    },
    /// Of a kind that is not known.
    UnrecognizedKind(u8),
}

impl OpcodeArm64 {
    /// Reads a word.
    pub fn parse(opcode: u32) -> Self {
        let word = ffi::parse_arm64(opcode);
        match word.answer {
            0 => OpcodeArm64::Null,
            1 => OpcodeArm64::Frameless {
                stack_size_in_bytes: word.value as u16,
            },
            2 => OpcodeArm64::Dwarf {
                eh_frame_fde: word.value,
            },
            3 => {
                let saved = |bit: u16| word.saved_pairs >> bit & 1 == 1;
                OpcodeArm64::FrameBased {
                    saved_reg_pair_count: word.saved_reg_pair_count,
                    d14_and_d15_saved: saved(11),
                    d12_and_d13_saved: saved(10),
                    d10_and_d11_saved: saved(9),
                    d8_and_d9_saved: saved(8),
                    x27_and_x28_saved: saved(4),
                    x25_and_x26_saved: saved(3),
                    x23_and_x24_saved: saved(2),
                    x21_and_x22_saved: saved(1),
                    x19_and_x20_saved: saved(0),
                }
            }
            _ => OpcodeArm64::UnrecognizedKind(word.value as u8),
        }
    }
}

impl Display for OpcodeArm64 {
    fn fmt(&self, f: &mut Formatter) -> Result {
        match *self {
            OpcodeArm64::Null => write!(f, "null"),
            OpcodeArm64::Frameless {
                stack_size_in_bytes,
            } => write!(f, "frameless, {stack_size_in_bytes} bytes"),
            OpcodeArm64::Dwarf { eh_frame_fde } => write!(f, "__eh_frame at {eh_frame_fde:#x}"),
            OpcodeArm64::FrameBased {
                saved_reg_pair_count: _,
                d14_and_d15_saved,
                d12_and_d13_saved,
                d10_and_d11_saved,
                d8_and_d9_saved,
                x27_and_x28_saved,
                x25_and_x26_saved,
                x23_and_x24_saved,
                x21_and_x22_saved,
                x19_and_x20_saved,
            } => {
                let pairs = [
                    (x19_and_x20_saved, "x19/x20"),
                    (x21_and_x22_saved, "x21/x22"),
                    (x23_and_x24_saved, "x23/x24"),
                    (x25_and_x26_saved, "x25/x26"),
                    (x27_and_x28_saved, "x27/x28"),
                    (d8_and_d9_saved, "d8/d9"),
                    (d10_and_d11_saved, "d10/d11"),
                    (d12_and_d13_saved, "d12/d13"),
                    (d14_and_d15_saved, "d14/d15"),
                ];
                write!(f, "frame-based")?;
                for (i, (_, pair)) in pairs.iter().filter(|(saved, _)| *saved).enumerate() {
                    let before = if i == 0 { ":" } else { "" };
                    write!(f, "{before} {pair}")?;
                }
                Ok(())
            }
            OpcodeArm64::UnrecognizedKind(kind) => write!(f, "unknown kind {kind}"),
        }
    }
}
