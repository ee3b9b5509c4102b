// Ours: the sources came without this file. All others here are the release's, byte for byte.
mod arm64; mod bitfield; mod permutation; mod x86; mod x86_64;
pub use {arm64::*, bitfield::*, x86::*, x86_64::*};
