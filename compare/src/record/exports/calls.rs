//! The calls that are recorded, and the cases that each must be met in.

/// Case: the refusal; for an answer that has an outcome, 100 for each of that and the refusal;
/// for a read 1 if it is granted; a register's state; a word's kind, or the answer on it.
pub struct Call {
    pub tag: u32,
    pub name: &'static str,
    pub cases: &'static [u32],
}

const fn call(tag: u32, name: &'static str, cases: &'static [u32]) -> Call {
    Call { tag, name, cases }
}

pub fn case(outcome: impl Into<u32>, refusal: impl Into<u32>) -> u32 {
    100 * outcome.into() + refusal.into()
}

const YES_OR_NO: &[u32] = &[0, 1];
const KINDS: &[u32] = &[0, 1, 2, 3, 4, 5, 6, 7, 8, 9, 10, 11, 12, 13, 14, 15];
/// None, a function, and refusals: of a section, and of a section whose lists are given.
const LOOKUPS: &[u32] = &[
    0, 100, 201, 202, 203, 204, 205, 206, 207, 208, 209, 210, 211, 212, 213, 214, 215,
];
const LOOKUPS_IN: &[u32] = &[
    0, 100, 202, 203, 204, 205, 206, 207, 208, 209, 210, 211, 212, 213, 214,
];
const STEPS: &[u32] = &[
    0, 100, 201, 202, 203, 204, 205, 206, 207, 208, 209, 210, 211, 213, 214, 215,
];
const STEPS_IN: &[u32] = &[
    0, 100, 202, 203, 204, 205, 206, 207, 208, 209, 210, 211, 213, 214,
];
const UNWINDS_X86_64: &[u32] = &[
    0, 1, 2, 3, 4, 5, 6, 7, 8, 9, 10, 11, 12, 13, 14, 15, 20, 21, 22, 23, 24, 25, 26, 27,
];
const UNWINDS_ARM64: &[u32] = &[
    0, 1, 2, 3, 4, 5, 6, 7, 8, 9, 10, 11, 12, 13, 14, 15, 20, 21, 22, 26, 27,
];

pub const IS_GRANTED: Call = call(1, "is_granted", YES_OR_NO);
pub const READ_U16: Call = call(2, "read_u16", YES_OR_NO);
pub const READ_U32: Call = call(3, "read_u32", YES_OR_NO);
pub const READ_U64: Call = call(4, "read_u64", YES_OR_NO);
pub const ENCODE_PERMUTATION_6: Call = call(5, "encode_permutation_6", &[0, 28]);
pub const OPCODE_KIND: Call = call(6, "opcode_kind", KINDS);
pub const OPCODE_SPECIFIC_BITS: Call = call(7, "opcode_specific_bits", &[0, 5, 10, 15]);
pub const REGISTER_X86_64: Call = call(8, "register_x86_64", &[0, 1, 2]);
pub const RULE_X86_64: Call = call(9, "rule_x86_64", &[0, 20, 21, 22, 23, 24, 25]);
pub const RULE_ARM64: Call = call(10, "rule_arm64", &[0, 20, 21, 22]);
pub const UNWIND_X86_64: Call = call(11, "unwind_x86_64", UNWINDS_X86_64);
pub const UNWIND_ARM64: Call = call(12, "unwind_arm64", UNWINDS_ARM64);
pub const ADDRESS_RANGE_IN: Call = call(13, "address_range_in", &[0, 2, 3]);
pub const LOOKUP_IN: Call = call(14, "lookup_in", LOOKUPS_IN);
pub const NEXT_IN: Call = call(15, "next_in", STEPS_IN);
pub const FILL: Call = call(16, "fill", STEPS);
pub const FILL_IN: Call = call(17, "fill_in", STEPS_IN);
pub const LOOKUP_BATCH: Call = call(18, "lookup_batch", LOOKUPS);
pub const PARSE_X86_64: Call = call(19, "parse_x86_64", &[0, 1, 2, 3, 4, 5, 6]);

pub const ALL: [&Call; 19] = [
    &IS_GRANTED,
    &READ_U16,
    &READ_U32,
    &READ_U64,
    &ENCODE_PERMUTATION_6,
    &OPCODE_KIND,
    &OPCODE_SPECIFIC_BITS,
    &REGISTER_X86_64,
    &RULE_X86_64,
    &RULE_ARM64,
    &UNWIND_X86_64,
    &UNWIND_ARM64,
    &ADDRESS_RANGE_IN,
    &LOOKUP_IN,
    &NEXT_IN,
    &FILL,
    &FILL_IN,
    &LOOKUP_BATCH,
    &PARSE_X86_64,
];
