//! The parts of a word that all machines share.

#![forbid(unsafe_code)]

use crate::ffi;

/// A word whose parts can be asked for.
///
/// Bits 28 to 31 have no say in what a word means for a frame. The three methods that read them are
/// the original's expressions in plain Rust, and not proved; `kind` and `specific_bits` are the
/// proved library's.
#[derive(Debug)]
pub struct OpcodeBitfield(pub u32);

impl OpcodeBitfield {
    /// Takes a word.
    pub fn new(value: u32) -> Self {
        OpcodeBitfield(value)
    }

    /// Bit 31, as the original names it: true where it is 1.
    ///
    /// Apple's header names the bit `UNWIND_IS_NOT_FUNCTION_START`, the opposite. By the header this
    /// is true where the word's place is *not* a function's start, so a service that goes by the
    /// header negates it.
    pub fn is_function_start(&self) -> bool {
        self.0 >> 31 == 1
    }

    /// Bit 30, the header's `UNWIND_HAS_LSDA`: whether the function has an entry in the section's
    /// list of language-specific data, which nothing here reads.
    pub fn has_lsda(&self) -> bool {
        self.0 >> 30 & 1 == 1
    }

    /// Bits 28 and 29, the header's `UNWIND_PERSONALITY_MASK`, as a number from 0 to 3. The list of
    /// personalities that it goes with is not read here.
    pub fn personality_index(&self) -> u8 {
        (self.0 >> 28 & 0b11) as u8
    }

    /// Bits 24 to 27, which say how a machine reads the rest.
    pub fn kind(&self) -> u8 {
        ffi::opcode_kind(self.0)
    }

    /// The low 24 bits.
    pub fn specific_bits(&self) -> u32 {
        ffi::opcode_specific_bits(self.0)
    }
}

impl From<u32> for OpcodeBitfield {
    fn from(opcode: u32) -> OpcodeBitfield {
        OpcodeBitfield::new(opcode)
    }
}
