//! Opcode words: what they say, machine by machine.
//!
//! As in the original, but for the d pairs of [`OpcodeArm64`], the fields of frame-based words of
//! [`OpcodeX86_64`], which are [`Named`], and the text that `Display` prints. 32-bit words
//! (`OpcodeX86`) are left out. What a word means for a frame is in [`frames`](crate::frames).

#![forbid(unsafe_code)]

mod arm64;
mod bitfield;
mod named;
mod permutation;
mod x86_64;

pub use arm64::OpcodeArm64;
pub use bitfield::OpcodeBitfield;
pub use named::Named;
pub use permutation::{decode_permutation_6, encode_permutation_6};
pub use x86_64::{OpcodeX86_64, RegisterNameX86_64};
