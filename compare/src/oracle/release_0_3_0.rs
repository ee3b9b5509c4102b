//! Release 0.3.0 with its real dependencies, as Debian packages it.

pub use macho_0_3_0 as macho;

/// Private in the crate, so `build.rs` copies the file.
pub mod permutation {
    include!(concat!(env!("OUT_DIR"), "/permutation.rs"));
}

/// Private in the crate, so `build.rs` copies the file.
mod reader {
    include!(concat!(env!("OUT_DIR"), "/reader.rs"));
}

const NAME: &str = "0.3.0";
const CHECKS_SUMS: bool = false;

include!("answers.rs");
include!("section_answers.rs");
