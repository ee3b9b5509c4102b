//! What `use zerocopy_derive::*` brings into macho-unwind-info 0.5.0.

pub use zerocopy_derive::{FromBytes, Unaligned};
pub use zerocopy_names_markers::{Immutable, KnownLayout};
