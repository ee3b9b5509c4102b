//! What the Rust tells of x86_64's words and registers, and ours told as it does.

use crate::ffi::{OpcodeX86_64, RegisterName, REGISTER};

/// A register's number, and the number in its DWARF name.
pub type Register = (u32, u32);

/// Cases and values are the C interface's; registers have their numbers.
#[derive(Clone, Copy, Debug, Default, PartialEq, Eq)]
pub struct WordX86_64 {
    pub value: u32,
    pub answer: u8,
    pub stack_adjust_in_bytes: u8,
    /// Of a frame-based word, field 0 first.
    pub fields: [Option<u8>; 5],
    /// Of a frameless word, in the order in which they are popped.
    pub popped_regs: [Option<u8>; 6],
}

/// The Rust has `None` for what is absent and for what is unknown.
fn of_state<T>(state: u32, register: T) -> Option<T> {
    (state == REGISTER).then_some(register)
}

pub fn register(ours: RegisterName) -> Option<Register> {
    of_state(ours.state, (ours.number, ours.dwarf_number))
}

pub fn word(ours: OpcodeX86_64) -> WordX86_64 {
    let fields = ours.five_fields();
    WordX86_64 {
        value: ours.value,
        answer: ours.answer,
        stack_adjust_in_bytes: ours.stack_adjust_in_bytes,
        fields: fields.map(|(state, number)| of_state(state, number)),
        // No number here is unknown: one that is differs from all that the Rust tells.
        popped_regs: ours.popped_regs.map(|n| (n != 0).then_some(n)),
    }
}
