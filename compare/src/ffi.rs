//! The C interface of `libbrasspurse.a`: its answers, and safe calls.
//!
//! A C `bool` is taken as a byte, so that one that is neither 0 nor 1 is seen as a difference.

pub mod frame;
pub mod section;
pub mod unwind;

/// `refusal` of a permutation that isn't accepted.
pub const PERMUTATION_REFUSED: u32 = 23;
/// `refusal` of a list or count that the encoder doesn't accept.
pub const LIST_REFUSED: u32 = 28;

#[repr(C)]
#[derive(Clone, Copy, Debug, Default, PartialEq, Eq)]
pub struct Permutation {
    pub refusal: u32,
    pub registers: [u8; 6],
}

#[repr(C)]
#[derive(Clone, Copy, Debug, Default, PartialEq, Eq)]
pub struct Encoding {
    pub refusal: u32,
    pub encoding: u32,
}

/// States of a number that may name a register of x86_64.
pub const ABSENT: u32 = 0;
pub const REGISTER: u32 = 1;
pub const UNKNOWN: u32 = 2;

#[repr(C)]
#[derive(Clone, Copy, Debug, Default, PartialEq, Eq)]
pub struct RegisterName {
    pub state: u32,
    pub number: u32,
    pub dwarf_number: u32,
}

/// `answer`: 0 null, 1 frame-based, 2 frameless immediate, 3 frameless indirect, 4 DWARF,
/// 5 invalid frameless, 6 unrecognised kind. `value`: the offset, the size, the immediate's
/// place, the 24 bits or the kind; 0 where the case has none. Field k of a frame-based word is bits
/// 3k to 3k + 2 of `fields`, and its state the same bits of `field_states`.
#[repr(C)]
#[derive(Clone, Copy, Debug, Default, PartialEq, Eq)]
pub struct OpcodeX86_64 {
    pub value: u32,
    pub answer: u8,
    pub stack_adjust_in_bytes: u8,
    pub fields: u16,
    pub field_states: u16,
    pub popped_regs: [u8; 6],
}

impl OpcodeX86_64 {
    /// State and number of each field, field 0 first.
    pub fn five_fields(&self) -> [(u32, u8); 5] {
        [0, 3, 6, 9, 12].map(|at| {
            let (state, number) = (self.field_states >> at & 7, self.fields >> at & 7);
            (state.into(), number as u8)
        })
    }
}

/// `answer`: 0 null, 1 frameless, 2 DWARF, 3 frame-based, 4 unrecognised kind. `value`: the size,
/// the 24 bits or the kind; 0 where the case has none. The pairs x19/x20 to x27/x28 are bits 0 to 4,
/// d8/d9 to d14/d15 bits 8 to 11.
#[repr(C)]
#[derive(Clone, Copy, Debug, Default, PartialEq, Eq)]
pub struct OpcodeArm64 {
    pub value: u32,
    pub answer: u8,
    pub saved_reg_pair_count: u8,
    pub saved_pairs: u16,
}

#[repr(C)]
#[derive(Clone, Copy, Debug, Default, PartialEq, Eq)]
pub struct Number {
    pub granted: u32,
    pub value: u64,
}

extern "C" {
    fn brasspurse_decode_permutation_6(count: u32, encoding: u32) -> Permutation;
    fn brasspurse_encode_permutation_6(count: u32, six_registers: *const u8) -> Encoding;
    fn brasspurse_opcode_kind(word: u32) -> u8;
    fn brasspurse_opcode_specific_bits(word: u32) -> u32;
    fn brasspurse_register_x86_64(n: u8) -> RegisterName;
    fn brasspurse_parse_x86_64(word: u32) -> OpcodeX86_64;
    fn brasspurse_parse_arm64(word: u32) -> OpcodeArm64;
    fn brasspurse_read_u16(section: *const u8, length: usize, offset: usize) -> Number;
    fn brasspurse_read_u32(section: *const u8, length: usize, offset: usize) -> Number;
    fn brasspurse_read_u64(section: *const u8, length: usize, offset: usize) -> Number;
    fn brasspurse_is_granted(section: *const u8, length: usize, offset: usize, bytes: usize) -> u8;
}

pub fn decode_permutation_6(count: u32, encoding: u32) -> Permutation {
    unsafe { brasspurse_decode_permutation_6(count, encoding) }
}

pub fn encode_permutation_6(count: u32, registers: &[u8; 6]) -> Encoding {
    unsafe { brasspurse_encode_permutation_6(count, registers.as_ptr()) }
}

pub fn opcode_kind(word: u32) -> u8 {
    unsafe { brasspurse_opcode_kind(word) }
}

pub fn opcode_specific_bits(word: u32) -> u32 {
    unsafe { brasspurse_opcode_specific_bits(word) }
}

pub fn register_x86_64(n: u8) -> RegisterName {
    unsafe { brasspurse_register_x86_64(n) }
}

pub fn parse_x86_64(word: u32) -> OpcodeX86_64 {
    unsafe { brasspurse_parse_x86_64(word) }
}

pub fn parse_arm64(word: u32) -> OpcodeArm64 {
    unsafe { brasspurse_parse_arm64(word) }
}

pub fn read_u16(section: &[u8], offset: usize) -> Number {
    unsafe { brasspurse_read_u16(section.as_ptr(), section.len(), offset) }
}

pub fn read_u32(section: &[u8], offset: usize) -> Number {
    unsafe { brasspurse_read_u32(section.as_ptr(), section.len(), offset) }
}

pub fn read_u64(section: &[u8], offset: usize) -> Number {
    unsafe { brasspurse_read_u64(section.as_ptr(), section.len(), offset) }
}

pub fn is_granted(section: &[u8], offset: usize, bytes: usize) -> u8 {
    unsafe { brasspurse_is_granted(section.as_ptr(), section.len(), offset, bytes) }
}
