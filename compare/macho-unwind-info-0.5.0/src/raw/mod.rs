// Ours: the sources came without this file. All others here are the release's, byte for byte.
mod compressed_function; pub mod consts; mod format; mod impls; mod unaligned;
pub use {compressed_function::*, format::*, unaligned::*};
