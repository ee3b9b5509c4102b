//! The header's arm64 constants.

use super::constants::Constants;
use super::{field, input, modes, words, Field, Mode};
use crate::ffi::{self, OpcodeArm64};
use crate::tally::{Report, Tally};

const MASK: &str = "UNWIND_ARM64_MODE_MASK";
const FRAMELESS: &str = "UNWIND_ARM64_MODE_FRAMELESS";
const DWARF: &str = "UNWIND_ARM64_MODE_DWARF";
const FRAME: &str = "UNWIND_ARM64_MODE_FRAME";

const MODES: [Mode; 3] = [(FRAMELESS, &[1]), (DWARF, &[2]), (FRAME, &[3])];
const UNRECOGNIZED: u8 = 4;

/// Those of a frame-based word are the nine pairs.
const FIELDS: [Field<OpcodeArm64>; 11] = [
    (
        "UNWIND_ARM64_FRAMELESS_STACK_SIZE_MASK",
        FRAMELESS,
        16,
        |opcode| opcode.value,
    ),
    ("UNWIND_ARM64_DWARF_SECTION_OFFSET", DWARF, 1, |opcode| {
        opcode.value
    }),
    ("UNWIND_ARM64_FRAME_X19_X20_PAIR", FRAME, 1, |opcode| {
        pair(opcode, 0)
    }),
    ("UNWIND_ARM64_FRAME_X21_X22_PAIR", FRAME, 1, |opcode| {
        pair(opcode, 1)
    }),
    ("UNWIND_ARM64_FRAME_X23_X24_PAIR", FRAME, 1, |opcode| {
        pair(opcode, 2)
    }),
    ("UNWIND_ARM64_FRAME_X25_X26_PAIR", FRAME, 1, |opcode| {
        pair(opcode, 3)
    }),
    ("UNWIND_ARM64_FRAME_X27_X28_PAIR", FRAME, 1, |opcode| {
        pair(opcode, 4)
    }),
    ("UNWIND_ARM64_FRAME_D8_D9_PAIR", FRAME, 1, |opcode| {
        pair(opcode, 8)
    }),
    ("UNWIND_ARM64_FRAME_D10_D11_PAIR", FRAME, 1, |opcode| {
        pair(opcode, 9)
    }),
    ("UNWIND_ARM64_FRAME_D12_D13_PAIR", FRAME, 1, |opcode| {
        pair(opcode, 10)
    }),
    ("UNWIND_ARM64_FRAME_D14_D15_PAIR", FRAME, 1, |opcode| {
        pair(opcode, 11)
    }),
];

pub fn compare(report: &mut Report, constants: &Constants) {
    let case = |word| ffi::parse_arm64(word).answer;
    report.add(modes(
        "header, arm64 modes",
        constants,
        MASK,
        &MODES,
        UNRECOGNIZED,
        case,
    ));
    report.add(fields(constants));
    report.add(pair_counts(constants));
}

fn fields(constants: &Constants) -> Tally {
    let mut tally = Tally::new("header, arm64 fields");
    for (name, mode, unit, ours) in FIELDS {
        let mask = constants.get(name);
        words(constants, MASK, mode, |word| {
            let opcode = ffi::parse_arm64(word);
            tally.check(
                || input(name, word),
                ours(&opcode),
                field(word, mask) * unit,
            );
        });
    }
    tally
}

/// The count is how many of the header's pairs are in the word.
fn pair_counts(constants: &Constants) -> Tally {
    let mut tally = Tally::new("header, arm64 pair counts");
    let pairs = FIELDS.iter().filter(|(_, mode, ..)| *mode == FRAME);
    let masks: Vec<u32> = pairs.map(|(name, ..)| constants.get(name)).collect();
    words(constants, MASK, FRAME, |word| {
        let count = ffi::parse_arm64(word).saved_reg_pair_count;
        let theirs = masks.iter().filter(|&mask| word & mask != 0).count();
        tally.check(|| input("pair count", word), count.into(), theirs);
    });
    tally
}

fn pair(opcode: &OpcodeArm64, bit: u16) -> u32 {
    u32::from(opcode.saved_pairs >> bit & 1)
}
