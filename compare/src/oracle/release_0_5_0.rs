//! Release 0.5.0, its sources unchanged, over the names of zerocopy 0.8.

pub use macho_0_5_0 as macho;

/// Private in the crate, so its file is compiled in.
#[path = "../../macho-unwind-info-0.5.0/src/opcodes/permutation.rs"]
pub mod permutation;

/// Private in the crate, so its file is compiled in.
#[path = "../../macho-unwind-info-0.5.0/src/reader.rs"]
mod reader;

const NAME: &str = "0.5.0";
const CHECKS_SUMS: bool = false;

include!("answers.rs");
include!("section_answers.rs");
