//! What a number in a word names.

#![forbid(unsafe_code)]

/// What a number in a word says of a register. `R` is the machine's registers.
///
/// ```
/// use macho_unwind_info::opcodes::{Named, RegisterNameX86_64};
///
/// assert_eq!(RegisterNameX86_64::parse(0), Named::Absent);
/// assert_eq!(RegisterNameX86_64::parse(6), Named::Register(RegisterNameX86_64::Rbp));
/// assert_eq!(RegisterNameX86_64::parse(7), Named::Unknown(7));
/// ```
#[derive(Copy, Clone, Debug, PartialEq, Eq, Hash)]
pub enum Named<R> {
    /// The number is 0: there is no register.
    Absent,
    /// The register with this number.
    Register(R),
    /// No register is known by this number. It is not absent: a word that has it says something
    /// that is not understood.
    Unknown(u8),
}
