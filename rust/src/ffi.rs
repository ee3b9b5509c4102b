//! The C interface of `libbrasspurse.a`: its answers, and a safe call for each function in use.
//!
//! The one module with unsafe code. Where a pointer is handed over, it is a slice's or an array's,
//! with its length; the library goes no further and keeps no pointer. Every other argument may be
//! any number, so no call here has a condition.

use std::mem::{align_of, size_of};

/// The places and counts of a section's two lists.
#[repr(C)]
#[derive(Clone, Copy)]
pub struct Lists {
    pub global_opcodes_offset: u32,
    pub global_opcodes_len: u32,
    pub pages_offset: u32,
    pub pages_len: u32,
}

/// `refusal`: 0, or its number with zeros.
#[repr(C)]
pub struct ParseAnswer {
    pub refusal: u32,
    pub lists: Lists,
}

/// `refusal`: 0, or its number with zeros.
#[repr(C)]
pub struct RangeAnswer {
    pub refusal: u32,
    pub start: u32,
    pub end: u32,
}

/// What a lookup tells: a function, none or an error, and the entries that it probed.
///
/// The default is "none", with no probes.
// `outcome`: 0 none, 1 function, 2 refused. `origin`: 1 regular, 2 global, 3 local. What a case has
// not is 0. Six numbers of a batch are these 24 bytes.
#[repr(C)]
#[derive(Clone, Copy, Debug, Default, PartialEq, Eq)]
pub struct LookupAnswer {
    pub(crate) start: u32,
    pub(crate) end: u32,
    pub(crate) opcode: u32,
    pub(crate) page: u32,
    pub(crate) index: u32,
    pub(crate) origin: u8,
    pub(crate) probes: u8,
    pub(crate) outcome: u8,
    pub(crate) refusal: u8,
}

/// `outcome`: 0 end, 1 function, 2 refused. `page` and `index`: the cursor for the next call.
/// `function_page` and `function_index`: the function's own. `origin`: as in a lookup's answer.
#[repr(C)]
pub struct NextAnswer {
    pub start: u32,
    pub end: u32,
    pub opcode: u32,
    pub page: u32,
    pub index: u32,
    pub function_page: u32,
    pub function_index: u32,
    pub origin: u8,
    pub outcome: u8,
    pub refusal: u8,
}

/// `outcome`: 0 end, 1 list full, 2 refused. `page` and `index`: the cursor for the next call.
#[cfg(test)]
#[repr(C)]
pub struct FillAnswer {
    pub functions: usize,
    pub page: u32,
    pub index: u32,
    pub outcome: u16,
    pub refusal: u16,
}

/// `refusal`: 0, or its number with zeros.
#[repr(C)]
pub struct PermutationAnswer {
    pub refusal: u32,
    pub registers: [u8; 6],
}

/// `refusal`: 0, or its number with 0.
#[repr(C)]
pub struct EncodingAnswer {
    pub refusal: u32,
    pub encoding: u32,
}

/// `state`: 0 absent, 1 a register, 2 unknown. `number`: the one asked about.
#[repr(C)]
pub struct RegisterAnswer {
    pub state: u32,
    pub number: u32,
    pub dwarf_number: u32,
}

/// `answer`: 0 null, 1 frame-based, 2 frameless immediate, 3 frameless indirect, 4 DWARF, 5 invalid
/// frameless, 6 unrecognised kind. `value`: the offset, the size, the immediate's place, the 24
/// bits or the kind. `fields`: field k of a frame-based word at bits 3k to 3k + 2; `field_states`:
/// its state there, as in a register's answer. `popped_regs`: a frameless word's list, 1 to 6 or 0.
#[repr(C)]
pub struct OpcodeX86_64Answer {
    pub value: u32,
    pub answer: u8,
    pub stack_adjust_in_bytes: u8,
    pub fields: u16,
    pub field_states: u16,
    pub popped_regs: [u8; 6],
}

/// `answer`: 0 null, 1 frameless, 2 DWARF, 3 frame-based, 4 unrecognised kind. `value`: the size,
/// the 24 bits or the kind. `saved_pairs`: at the word's own bits, x19/x20 .. x27/x28 at 0 to 4,
/// d8/d9 .. d14/d15 at 8 to 11.
#[repr(C)]
pub struct OpcodeArm64Answer {
    pub value: u32,
    pub answer: u8,
    pub saved_reg_pair_count: u8,
    pub saved_pairs: u16,
}

/// `refusal`: 0, or its number with its `value` and zeros. `cfa_register`: 0 the stack pointer, 1
/// the frame pointer. `below`: 0 absent, else the slot's distance. `N` preserved registers.
#[repr(C)]
pub struct RuleAnswer<const N: usize> {
    pub refusal: u32,
    pub value: u32,
    pub cfa_distance: u64,
    pub cfa_register: u32,
    pub below: [u16; N],
}

/// Registers of x86_64 that a step starts from, or ends with.
#[repr(C)]
#[derive(Clone, Copy, Debug, Default, PartialEq, Eq, Hash)]
pub struct RegistersX86_64 {
    /// The instruction pointer.
    pub rip: u64,
    /// The stack pointer.
    pub rsp: u64,
    /// rbx, r12, r13, r14, r15 and rbp.
    pub saved: [u64; 6],
}

/// Registers of arm64 that a step starts from, or ends with.
#[repr(C)]
#[derive(Clone, Copy, Debug, Default, PartialEq, Eq, Hash)]
pub struct RegistersArm64 {
    /// The instruction pointer.
    pub pc: u64,
    /// The stack pointer.
    pub sp: u64,
    /// x19 to x30, then d8 to d15.
    pub saved: [u64; 20],
}

/// `refusal`: 0, or its number with its `value` and the registers as they were.
#[repr(C)]
pub struct StepAnswer<R> {
    pub refusal: u32,
    pub value: u32,
    pub registers: R,
}

/// The same, with the lookup's probes.
#[repr(C)]
pub struct UnwindAnswer<R> {
    pub refusal: u32,
    pub value: u32,
    pub probes: u32,
    pub registers: R,
}

const _: () = {
    assert!(size_of::<Lists>() == 16);
    assert!(size_of::<ParseAnswer>() == 20);
    assert!(size_of::<RangeAnswer>() == 12);
    assert!(size_of::<LookupAnswer>() == 6 * size_of::<u32>());
    assert!(align_of::<LookupAnswer>() == align_of::<u32>());
    assert!(size_of::<NextAnswer>() == 32);
    #[cfg(test)]
    assert!(size_of::<FillAnswer>() == 24);
    assert!(size_of::<PermutationAnswer>() == 12);
    assert!(size_of::<EncodingAnswer>() == 8);
    assert!(size_of::<RegisterAnswer>() == 12);
    assert!(size_of::<OpcodeX86_64Answer>() == 16);
    assert!(size_of::<OpcodeArm64Answer>() == 8);
    assert!(size_of::<RuleAnswer<6>>() == 32);
    assert!(size_of::<RuleAnswer<20>>() == 64);
    assert!(size_of::<RegistersX86_64>() == 64);
    assert!(size_of::<RegistersArm64>() == 176);
    assert!(size_of::<StepAnswer<RegistersX86_64>>() == 72);
    assert!(size_of::<StepAnswer<RegistersArm64>>() == 184);
    assert!(size_of::<UnwindAnswer<RegistersX86_64>>() == 80);
    assert!(size_of::<UnwindAnswer<RegistersArm64>>() == 192);
};

type Bytes = *const u8;

extern "C" {
    fn brasspurse_parse(section: Bytes, length: usize) -> ParseAnswer;
    fn brasspurse_address_range_in(section: Bytes, length: usize, lists: Lists) -> RangeAnswer;
    fn brasspurse_lookup_in(
        section: Bytes,
        length: usize,
        lists: Lists,
        address: u32,
    ) -> LookupAnswer;
    fn brasspurse_lookup_batch(
        section: Bytes,
        length: usize,
        addresses: *const u32,
        count: usize,
        answers: *mut u32,
        room: usize,
    ) -> usize;
    fn brasspurse_next_in(
        section: Bytes,
        length: usize,
        lists: Lists,
        page: u32,
        index: u32,
    ) -> NextAnswer;
    #[cfg(test)]
    fn brasspurse_fill_in(
        section: Bytes,
        length: usize,
        lists: Lists,
        page: u32,
        index: u32,
        out: *mut u32,
        room: usize,
    ) -> FillAnswer;
    // C's bool, as a byte.
    fn brasspurse_is_well_formed(section: Bytes, length: usize) -> u8;

    fn brasspurse_decode_permutation_6(count: u32, encoding: u32) -> PermutationAnswer;
    fn brasspurse_encode_permutation_6(count: u32, six_registers: Bytes) -> EncodingAnswer;
    fn brasspurse_opcode_kind(word: u32) -> u8;
    fn brasspurse_opcode_specific_bits(word: u32) -> u32;
    fn brasspurse_register_x86_64(n: u8) -> RegisterAnswer;
    fn brasspurse_parse_x86_64(word: u32) -> OpcodeX86_64Answer;
    fn brasspurse_parse_arm64(word: u32) -> OpcodeArm64Answer;

    fn brasspurse_rule_x86_64(opcode: u32) -> RuleAnswer<6>;
    fn brasspurse_rule_arm64(opcode: u32) -> RuleAnswer<20>;
    fn brasspurse_step_x86_64(
        opcode: u32,
        registers: RegistersX86_64,
        base: u64,
        window: Bytes,
        length: usize,
    ) -> StepAnswer<RegistersX86_64>;
    fn brasspurse_step_arm64(
        opcode: u32,
        registers: RegistersArm64,
        base: u64,
        window: Bytes,
        length: usize,
    ) -> StepAnswer<RegistersArm64>;
    fn brasspurse_unwind_x86_64(
        section: Bytes,
        section_length: usize,
        address: u32,
        registers: RegistersX86_64,
        base: u64,
        window: Bytes,
        window_length: usize,
    ) -> UnwindAnswer<RegistersX86_64>;
    fn brasspurse_unwind_arm64(
        section: Bytes,
        section_length: usize,
        address: u32,
        registers: RegistersArm64,
        base: u64,
        window: Bytes,
        window_length: usize,
    ) -> UnwindAnswer<RegistersArm64>;
}

pub fn parse(section: &[u8]) -> ParseAnswer {
    unsafe { brasspurse_parse(section.as_ptr(), section.len()) }
}

pub fn address_range_in(section: &[u8], lists: Lists) -> RangeAnswer {
    unsafe { brasspurse_address_range_in(section.as_ptr(), section.len(), lists) }
}

pub fn lookup_in(section: &[u8], lists: Lists, address: u32) -> LookupAnswer {
    unsafe { brasspurse_lookup_in(section.as_ptr(), section.len(), lists, address) }
}

/// Gives how many answers were written.
pub fn lookup_batch(section: &[u8], addresses: &[u32], answers: &mut [LookupAnswer]) -> usize {
    // An answer has the size and alignment of six numbers, and any six are an answer.
    let (numbers, room) = (answers.as_mut_ptr().cast(), 6 * answers.len());
    unsafe {
        brasspurse_lookup_batch(
            section.as_ptr(),
            section.len(),
            addresses.as_ptr(),
            addresses.len(),
            numbers,
            room,
        )
    }
}

#[inline]
pub fn next_in(section: &[u8], lists: Lists, page: u32, index: u32) -> NextAnswer {
    unsafe { brasspurse_next_in(section.as_ptr(), section.len(), lists, page, index) }
}

#[cfg(test)]
pub fn fill_in(section: &[u8], lists: Lists, page: u32, index: u32, out: &mut [u32]) -> FillAnswer {
    let (bytes, length) = (section.as_ptr(), section.len());
    let (list, room) = (out.as_mut_ptr(), out.len());
    unsafe { brasspurse_fill_in(bytes, length, lists, page, index, list, room) }
}

pub fn is_well_formed(section: &[u8]) -> bool {
    unsafe { brasspurse_is_well_formed(section.as_ptr(), section.len()) != 0 }
}

pub fn decode_permutation_6(count: u32, encoding: u32) -> PermutationAnswer {
    unsafe { brasspurse_decode_permutation_6(count, encoding) }
}

pub fn encode_permutation_6(count: u32, registers: &[u8; 6]) -> EncodingAnswer {
    unsafe { brasspurse_encode_permutation_6(count, registers.as_ptr()) }
}

pub fn opcode_kind(word: u32) -> u8 {
    unsafe { brasspurse_opcode_kind(word) }
}

pub fn opcode_specific_bits(word: u32) -> u32 {
    unsafe { brasspurse_opcode_specific_bits(word) }
}

pub fn register_x86_64(n: u8) -> RegisterAnswer {
    unsafe { brasspurse_register_x86_64(n) }
}

pub fn parse_x86_64(word: u32) -> OpcodeX86_64Answer {
    unsafe { brasspurse_parse_x86_64(word) }
}

pub fn parse_arm64(word: u32) -> OpcodeArm64Answer {
    unsafe { brasspurse_parse_arm64(word) }
}

pub fn rule_x86_64(opcode: u32) -> RuleAnswer<6> {
    unsafe { brasspurse_rule_x86_64(opcode) }
}

pub fn rule_arm64(opcode: u32) -> RuleAnswer<20> {
    unsafe { brasspurse_rule_arm64(opcode) }
}

pub fn step_x86_64(
    opcode: u32,
    registers: RegistersX86_64,
    base: u64,
    window: &[u8],
) -> StepAnswer<RegistersX86_64> {
    unsafe { brasspurse_step_x86_64(opcode, registers, base, window.as_ptr(), window.len()) }
}

pub fn step_arm64(
    opcode: u32,
    registers: RegistersArm64,
    base: u64,
    window: &[u8],
) -> StepAnswer<RegistersArm64> {
    unsafe { brasspurse_step_arm64(opcode, registers, base, window.as_ptr(), window.len()) }
}

pub fn unwind_x86_64(
    section: &[u8],
    address: u32,
    registers: RegistersX86_64,
    base: u64,
    window: &[u8],
) -> UnwindAnswer<RegistersX86_64> {
    let (bytes, length) = (section.as_ptr(), section.len());
    let (stack, stack_length) = (window.as_ptr(), window.len());
    unsafe {
        brasspurse_unwind_x86_64(bytes, length, address, registers, base, stack, stack_length)
    }
}

pub fn unwind_arm64(
    section: &[u8],
    address: u32,
    registers: RegistersArm64,
    base: u64,
    window: &[u8],
) -> UnwindAnswer<RegistersArm64> {
    let (bytes, length) = (section.as_ptr(), section.len());
    let (stack, stack_length) = (window.as_ptr(), window.len());
    unsafe { brasspurse_unwind_arm64(bytes, length, address, registers, base, stack, stack_length) }
}
