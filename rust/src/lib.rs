//! Looks up and undoes stack frames by the `__unwind_info` section of a Mach-O image.
//!
//! The names are those of the crate macho-unwind-info 0.5.0, so that a service changes its
//! dependency and little else. The answers come from the library `libbrasspurse.a`, whose functions
//! are proved. What is here turns these answers into the original's types; it is plain Rust, tested
//! and not proved, with unsafe code in one module alone.
//!
//! # A lookup
//!
//! ```
//! # let section = std::fs::read(concat!(env!("CARGO_MANIFEST_DIR"), "/../sections/s.bin"))?;
//! use macho_unwind_info::opcodes::OpcodeX86_64;
//! use macho_unwind_info::UnwindInfo;
//!
//! let info = UnwindInfo::parse(&section)?;
//! if let Some(function) = info.lookup(0x1040)? {
//!     assert_eq!(function.end_address, 0x1100);
//!     let opcode = OpcodeX86_64::parse(function.opcode);
//!     assert_eq!(opcode.to_string(), "frameless, 24 bytes: rbx r12");
//! }
//! # Ok::<(), Box<dyn std::error::Error>>(())
//! ```
//!
//! # What is promised
//!
//! Of the library's answers, by proof; docs/FORMAT.md has the terms, and in its part 0 the promises
//! at length.
//!
//! - Any bytes, addresses, words, registers and windows may be given. Every call ends, reads and
//!   writes only what it was lent, and answers or refuses with a number.
//! - In a well-formed section ([`is_well_formed`]) no lookup and no iteration refuses, and a lookup
//!   gives the one iterated function that covers the address, or `None` where there is none. In any
//!   other section it gives what its bisection finds, which may be a function that does not cover
//!   the address.
//! - A step undoes the prologue that the word describes. This is so of every sound word
//!   (docs/FORMAT.md, 9), in a function that is stopped after its prologue and before its epilogue,
//!   and whose body kept to its limits. Any other word is refused.
//!
//! It is not promised that a compiler's word describes the prologue that the compiler wrote. Of one
//! sort of arm64 words it is known that it doesn't, as this crate and the original read them:
//! frameless words of functions that save anything. They are not refused, and registers of the
//! caller come out wrong: [`frames`](frames#where-real-code-differs) says which. Real code also
//! has words that are refused: with 21 where the frame is in `__eh_frame`, with 25 where its size
//! stands in the code.
//!
//! # Building
//!
//! The library is made by `scripts/archive`, by `rt lib` in `crates/brasspurse_c`, in
//! `target/staticlib`, where the build looks for it. `BRASSPURSE_LIB_DIR` names another folder, by an
//! absolute path. It is x86-64 code for Linux, and the build says so and stops for any other target.
//! On another machine build with `--target x86_64-unknown-linux-gnu` and a linker for it, and run
//! under an emulator. Library and crate must be of the same release: a refusal that has no name here
//! is a panic.
//!
//! # Moving a service over
//!
//! The dependency's line changes:
//!
//! ```toml
//! [dependencies]
//! macho-unwind-info = { package = "brasspurse", path = "../brasspurse/rust" }
//! ```
//!
//! A service that was written against 0.5.0, without `raw` and 32-bit words (`tests/service.rs`),
//! then needed this, and no more:
//!
//! - Its `match` on [`Error`] that named every variant did not compile: it got arms for
//!   [`Error::AddressTooLarge`], [`Error::LocalIndex`] and [`Error::WrongVersion`].
//! - Its pattern that named every field of a [`Function`] did not compile: it got `..`.
//! - Its loop over the fields of an x86_64 frame-based word did not compile: it got a `match` on
//!   [`Named`](opcodes::Named), and takes them from the first on, where it took them from the last.
//! - Its tests of texts failed: those of words and of errors are others.
//! - Its test that an [`Error::ReadError`] has a [`ReadError`] as `source()` failed: here it has none.
//!
//! # What the original has and this crate hasn't
//!
//! | the original | here | instead |
//! |---|---|---|
//! | the module `raw`: header, pages and entries as they lie in the section, `consts` | missing | [`UnwindInfo::functions`], [`lookup`](UnwindInfo::lookup) and [`address_range`](UnwindInfo::address_range) give what they lead to; for personalities and LSDAs, the original beside this crate, as below |
//! | `opcodes::OpcodeX86` and `RegisterNameX86`, the 32-bit words | missing | the same: it can parse the `opcode` that a lookup here gave |
//! | `RegisterNameX86_64::parse` gives an `Option`, `None` for 0 and for a number that names nothing | gives [`Named`](opcodes::Named) | `Named::Register` is its `Some` |
//! | `saved_regs` of `OpcodeX86_64::FrameBased`: five `Option`s, the highest field first | five [`Named`](opcodes::Named), place k with field k | the places from the last on |
//! | `Display` of words, as "CFA=reg6+16: reg6=\[CFA-16\]" | another text | [`frames::RuleX86_64`] and [`frames::RuleArm64`] have the distances as numbers |
//! | `Display` of errors, as "Invalid page kind" | another text, with the refusal's number | the variant, or `number()` |
//! | `source()` of [`Error::ReadError`], whose text the error's own repeats | none: a text is whole, and a chain says each thing once | the variant |
//! | `Debug` of [`OpcodeBitfield`](opcodes::OpcodeBitfield), with the parts by name | derived: the word as one number | its methods |
//! | plain Rust, for any target | x86-64 Linux alone, and a library to be made first | see "Building" |
//!
//! All other public items are here, with the same signatures, fields and traits, and [`Function`]
//! has three fields more: `tests/items.rs` names each, and compiles against the original too. Both
//! crates can be had at once:
//!
//! ```toml
//! original = { package = "macho-unwind-info", version = "0.5" }  # then original::raw
//! ```
//!
//! # What differs in answers
//!
//! - [`Error::AddressTooLarge`] and [`Error::LocalIndex`] are new. There the original's sums wrap,
//!   or it panics.
//! - So is [`Error::WrongVersion`]: [`UnwindInfo::parse`] refuses a header whose version is not 1,
//!   at which the original does not look.
//! - In a section whose addresses don't rise, a lookup finds what its bisection finds; the
//!   original's may find another entry.
//! - After an error [`FunctionIter::next`] goes on behind what was refused. The original does so
//!   too, where it doesn't panic.
//! - Of an arm64 frame-based word [`OpcodeArm64::parse`](opcodes::OpcodeArm64::parse) reads the
//!   pairs d8/d9 to d14/d15 from bits 8 to 11, where compilers write them, and not bits 5 to 7. The
//!   original reads these pairs from bits 5 to 8. Both count the pairs that they read. 0x04000020
//!   lists d8/d9 in the original and nothing here; 0x04000100 lists d14/d15 in the original and
//!   d8/d9 here. Where none of bits 5 to 11 is set, they agree; where one is, they agree only if
//!   bits 5, 8 and 11 are alike, bits 6 and 9, and bits 7 and 10.
//! - A field of an x86_64 frame-based word that is 7 is
//!   [`Named::Unknown`](opcodes::Named::Unknown), and one that is 0
//!   [`Named::Absent`](opcodes::Named::Absent). To the original they are alike: it reads 0x01000007
//!   as 0x01000000. The fields come in the word's order, the original's from the highest on. The
//!   registers that they name are the same.
//!
//! On all other input `parse`, `address_range`, `lookup`, `functions` and the words' `parse` gave
//! what the original gives, wherever they were compared (docs/DIFFERENCES.md).
//!
//! # What is added
//!
//! - Refusals have numbers: every error type has `number()`. [`Error`] has 1 to 15, [`Refusal`] 20
//!   to 27, [`UnwindError`] both, [`PermutationError`] 23 and 28.
//! - [`frames`] has the rule of a word, and the step by it from a frame's registers to its
//!   caller's; [`UnwindInfo::unwind_x86_64`] and [`UnwindInfo::unwind_arm64`] look up and step in
//!   one call.
//! - A [`Function`] says where it came from: its page, its index there, and the [`Origin`] of its
//!   opcode. Lookup and iteration of a well-formed section agree in these too, and
//!   [`UnwindInfo::functions_from`] goes on from a function that was found.
//! - [`UnwindInfo::lookup_with_probes`] counts what a lookup looked at,
//!   [`UnwindInfo::lookup_batch`] answers many addresses in one call.
//! - [`is_well_formed`] says whether a section has nothing wrong in it.
//! - [`opcodes::decode_permutation_6`] is public, and [`opcodes::encode_permutation_6`] is its
//!   inverse.
//! - [`RegisterNameX86_64`](opcodes::RegisterNameX86_64) has `COUNT` and `dwarf_number`, and can be
//!   hashed.
//! - Absent is told from unknown: [`Named`](opcodes::Named) in words, [`Slot`](frames::Slot) in
//!   rules.
//!
//! Frames that `__eh_frame` describes are not unwound, and symbols not named.

#![deny(unsafe_code)]
#![warn(missing_docs)]

mod error;
#[allow(unsafe_code)]
mod ffi;
pub mod frames;
mod function_iter;
pub mod opcodes;
mod unwind_info;

#[cfg(test)]
#[path = "../tests/answers/inputs.rs"]
mod inputs;

pub use error::{Error, PermutationError, ReadError, Refusal, UnwindError};
pub use ffi::LookupAnswer;
pub use function_iter::FunctionIter;
pub use unwind_info::{is_well_formed, Function, Origin, UnwindInfo};
