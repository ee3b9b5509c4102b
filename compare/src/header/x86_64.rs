//! The header's x86_64 constants.

use super::constants::Constants;
use super::{field, input, modes, words, Field, Mode};
use crate::ffi::{self, OpcodeX86_64, ABSENT, REGISTER};
use crate::tally::{Report, Tally};

const MASK: &str = "UNWIND_X86_64_MODE_MASK";
const RBP_FRAME: &str = "UNWIND_X86_64_MODE_RBP_FRAME";
const STACK_IMMD: &str = "UNWIND_X86_64_MODE_STACK_IMMD";
const STACK_IND: &str = "UNWIND_X86_64_MODE_STACK_IND";
const DWARF: &str = "UNWIND_X86_64_MODE_DWARF";

/// The frameless modes have a second case, for a refused permutation.
const MODES: [Mode; 4] = [
    (RBP_FRAME, &[1]),
    (STACK_IMMD, &[2, 5]),
    (STACK_IND, &[3, 5]),
    (DWARF, &[4]),
];
const REFUSED: u8 = 5;
const UNRECOGNIZED: u8 = 6;

const FIELDS: [Field<OpcodeX86_64>; 6] = [
    (
        "UNWIND_X86_64_RBP_FRAME_REGISTERS",
        RBP_FRAME,
        1,
        |opcode| opcode.fields.into(),
    ),
    ("UNWIND_X86_64_RBP_FRAME_OFFSET", RBP_FRAME, 8, |opcode| {
        opcode.value
    }),
    (
        "UNWIND_X86_64_FRAMELESS_STACK_SIZE",
        STACK_IMMD,
        8,
        |opcode| opcode.value,
    ),
    (
        "UNWIND_X86_64_FRAMELESS_STACK_SIZE",
        STACK_IND,
        1,
        |opcode| opcode.value,
    ),
    (
        "UNWIND_X86_64_FRAMELESS_STACK_ADJUST",
        STACK_IND,
        8,
        |opcode| opcode.stack_adjust_in_bytes.into(),
    ),
    ("UNWIND_X86_64_DWARF_SECTION_OFFSET", DWARF, 1, |opcode| {
        opcode.value
    }),
];

/// Registers with their DWARF numbers; 0 where there is none.
const REGISTERS: [(&str, u32); 7] = [
    ("UNWIND_X86_64_REG_NONE", 0),
    ("UNWIND_X86_64_REG_RBX", 3),
    ("UNWIND_X86_64_REG_R12", 12),
    ("UNWIND_X86_64_REG_R13", 13),
    ("UNWIND_X86_64_REG_R14", 14),
    ("UNWIND_X86_64_REG_R15", 15),
    ("UNWIND_X86_64_REG_RBP", 6),
];

pub fn compare(report: &mut Report, constants: &Constants) {
    let case = |word| ffi::parse_x86_64(word).answer;
    report.add(modes(
        "header, x86_64 modes",
        constants,
        MASK,
        &MODES,
        UNRECOGNIZED,
        case,
    ));
    report.add(fields(constants));
    report.add(permutations(constants));
    report.add(registers(constants));
}

fn fields(constants: &Constants) -> Tally {
    let mut tally = Tally::new("header, x86_64 fields");
    for (name, mode, unit, ours) in FIELDS {
        let mask = constants.get(name);
        words(constants, MASK, mode, |word| {
            let opcode = ffi::parse_x86_64(word);
            // A refused permutation leaves the other fields unsaid.
            if opcode.answer != REFUSED {
                tally.check(
                    || input(name, word),
                    ours(&opcode),
                    field(word, mask) * unit,
                );
            }
        });
    }
    tally
}

/// Count and permutation, by our decoder on the header's two fields.
fn permutations(constants: &Constants) -> Tally {
    let mut tally = Tally::new("header, x86_64 count and permutation");
    let count = constants.get("UNWIND_X86_64_FRAMELESS_STACK_REG_COUNT");
    let permutation = constants.get("UNWIND_X86_64_FRAMELESS_STACK_REG_PERMUTATION");
    for mode in [STACK_IMMD, STACK_IND] {
        words(constants, MASK, mode, |word| {
            let opcode = ffi::parse_x86_64(word);
            let decoded = ffi::decode_permutation_6(field(word, count), field(word, permutation));
            tally.check(
                || input(mode, word),
                (opcode.answer == REFUSED, opcode.popped_regs),
                (decoded.refusal != 0, decoded.registers),
            );
        });
    }
    tally
}

fn registers(constants: &Constants) -> Tally {
    let mut tally = Tally::new("header, x86_64 registers");
    for (name, dwarf_number) in REGISTERS {
        let number = constants.get(name);
        let is_register = dwarf_number != 0;
        tally.check(
            || name.to_string(),
            ffi::register_x86_64(number as u8),
            ffi::RegisterName {
                state: if is_register { REGISTER } else { ABSENT },
                number,
                dwarf_number,
            },
        );
    }
    tally
}
