//! The Rust crate in two releases, its answers put into the C interface's shapes, or into those of
//! `told` where it tells less.

mod checked_0_5_0;
pub mod release_0_3_0;
pub mod release_0_5_0;
pub mod section;
pub mod told;

use crate::ffi::{Number, OpcodeArm64, Permutation};
use told::{Register, WordX86_64};

/// What one release answers.
pub struct Release {
    pub name: &'static str,
    pub decode_permutation_6: fn(u32, u32) -> Permutation,
    pub opcode_kind: fn(u32) -> u8,
    pub opcode_specific_bits: fn(u32) -> u32,
    pub register_x86_64: fn(u8) -> Option<Register>,
    pub parse_x86_64: fn(u32) -> WordX86_64,
    pub parse_arm64: fn(u32) -> OpcodeArm64,
    pub read_u16: fn(&[u8], usize) -> Number,
    pub read_u32: fn(&[u8], usize) -> Number,
    pub read_u64: fn(&[u8], usize) -> Number,
    pub is_granted: fn(&[u8], usize, usize) -> u8,
}

pub static RELEASES: [Release; 2] = [release_0_3_0::RELEASE, release_0_5_0::RELEASE];

/// The release whose answers are recorded.
pub static NEWEST: &Release = &RELEASES[1];

/// An x86_64 word that the Rust doesn't tell from this one: a frame-based one with 0 for each 7.
pub fn told_alike_x86_64(word: u32) -> u32 {
    let fields = [0, 3, 6, 9, 12].map(|at| 7 << at);
    let sevens = fields.iter().filter(|&field| word & field == *field);
    if word >> 24 & 15 == 1 {
        word & !sevens.sum::<u32>()
    } else {
        word
    }
}

/// An arm64 word without what the Rust reads otherwise: bits 5 to 11 of a frame-based one. The Rust
/// has d pairs at bits 5 to 8; they stand at bits 8 to 11 (docs/FORMAT.md, 7.4).
pub fn read_alike_arm64(word: u32) -> u32 {
    if word >> 24 & 15 == 4 {
        word & !0xfe0
    } else {
        word
    }
}

/// Whether the Rust is asked about an arm64 word, and must say the same.
pub fn is_asked_arm64(word: u32) -> bool {
    read_alike_arm64(word) == word
}
