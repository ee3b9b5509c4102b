//! Rules written out.

use crate::ffi::frame::{rule_arm64, rule_x86_64, Rule};
use crate::tally::{Report, Tally};

/// Of a word that is refused.
const fn refused<const N: usize>(refusal: u32, value: u32) -> Rule<N> {
    Rule {
        refusal,
        value,
        cfa_distance: 0,
        cfa_register: 0,
        below: [0; N],
    }
}

const fn from_stack_pointer<const N: usize>(cfa_distance: u64, below: [u16; N]) -> Rule<N> {
    Rule {
        cfa_distance,
        below,
        ..refused(0, 0)
    }
}

const fn from_frame_pointer<const N: usize>(below: [u16; N]) -> Rule<N> {
    Rule {
        cfa_register: 1,
        ..from_stack_pointer(16, below)
    }
}

const X86_64: [(u32, Rule<6>); 9] = [
    (0x0101_0001, from_frame_pointer([24, 0, 0, 0, 0, 16])),
    (0x0100_0000, from_frame_pointer([0, 0, 0, 0, 0, 16])),
    (0x01ff_0001, from_frame_pointer([2056, 0, 0, 0, 0, 16])),
    (0x0103_0045, from_frame_pointer([24, 0, 0, 0, 40, 16])),
    (0x0203_0800, from_stack_pointer(24, [24, 16, 0, 0, 0, 0])),
    (0x0201_03ff, from_stack_pointer(8, [0; 6])),
    (
        0x02ff_1acf,
        from_stack_pointer(2040, [16, 24, 32, 40, 48, 56]),
    ),
    (0x0300_0000, refused(25, 0)),
    (0x04ff_ffff, refused(21, 0xff_ffff)),
];

const ARM64: [(u32, Rule<20>); 7] = [
    (0x02ff_f000, from_stack_pointer(65_520, [0; 20])),
    (
        0x0400_0000,
        from_frame_pointer([0, 0, 0, 0, 0, 0, 0, 0, 0, 0, 16, 8, 0, 0, 0, 0, 0, 0, 0, 0]),
    ),
    (
        0x0400_00e0,
        from_frame_pointer([0, 0, 0, 0, 0, 0, 0, 0, 0, 0, 16, 8, 0, 0, 0, 0, 0, 0, 0, 0]),
    ),
    (
        0x0400_0100,
        from_frame_pointer([
            0, 0, 0, 0, 0, 0, 0, 0, 0, 0, 16, 8, 24, 32, 0, 0, 0, 0, 0, 0,
        ]),
    ),
    (
        0x0400_0101,
        from_frame_pointer([
            24, 32, 0, 0, 0, 0, 0, 0, 0, 0, 16, 8, 40, 48, 0, 0, 0, 0, 0, 0,
        ]),
    ),
    (
        0x0400_0f1f,
        from_frame_pointer([
            24, 32, 40, 48, 56, 64, 72, 80, 88, 96, 16, 8, 104, 112, 120, 128, 136, 144, 152, 160,
        ]),
    ),
    (0x0100_0000, refused(22, 1)),
];

pub fn compare(report: &mut Report) {
    let mut tally = Tally::new("rules, named cases");
    let input = |word: u32| move || format!("word {word:#010x}");
    for (word, rule) in X86_64 {
        tally.check(input(word), rule_x86_64(word), rule);
    }
    for (word, rule) in ARM64 {
        tally.check(input(word), rule_arm64(word), rule);
    }
    report.add(tally);
}
