//! x86_64's cases.

use super::{case, gives, refuses, without_first, without_last, Case, Named};
use crate::ffi::frame::Registers;

/// Every register has a number of its own; rsp and rbp are given.
const fn registers(sp: u64, rbp: u64) -> Registers<6> {
    Registers {
        pc: 0x401,
        sp,
        saved: [0xb, 0x12, 0x13, 0x14, 0x15, rbp],
    }
}

const END: u64 = u64::MAX;

pub fn all() -> Vec<Named<6>> {
    [frames(), edges(), words()].into_iter().flatten().collect()
}

/// The window of P12 (docs/FORMAT.md, 13.1): rbx, rbp and the return address at 0x7000 to 0x7018.
fn p12() -> Case<6> {
    case(
        0x0101_0001,
        registers(0x6f00, 0x7008),
        0x7000,
        &[0xb0b, 0x7777, 0x5005],
    )
}

/// The same frame after 65,536 other bytes, at 0x20000 to 0x20018.
fn p12_far_in() -> Case<6> {
    Case {
        registers: registers(0x6f00, 0x2_0008),
        base: 0x1_0000,
        bytes: [vec![0; 0x1_0000], p12().bytes].concat(),
        ..p12()
    }
}

/// rbx, then r12, then the return address at 0x8000 to 0x8018.
fn two_pushed() -> Case<6> {
    case(
        0x0203_0800,
        registers(0x8000, 6),
        0x8000,
        &[0xb0b, 0x1212, 0x5005],
    )
}

fn frames() -> Vec<Named<6>> {
    let caller = |sp, saved| Registers {
        pc: 0x5005,
        sp,
        saved,
    };
    let p12_caller = caller(0x7018, [0xb0b, 0x12, 0x13, 0x14, 0x15, 0x7777]);
    let far_caller = caller(0x2_0018, [0xb0b, 0x12, 0x13, 0x14, 0x15, 0x7777]);
    let pushed_caller = caller(0x8018, [0xb0b, 0x1212, 0x13, 0x14, 0x15, 6]);
    // r15 in field 0, rbx in field 2; the slot between is nobody's.
    let gap = case(
        0x0103_0045,
        registers(1, 0x9018),
        0x9000,
        &[0x1515, 0xaaaa, 0xb0b, 0x7777, 0x5005],
    );
    let gap_caller = caller(0x9028, [0xb0b, 0x12, 0x13, 0x14, 0x1515, 0x7777]);
    // Count 6 with 719 lists rbp, r15, r14, r13, r12, rbx.
    let all_six = case(
        0x0207_1acf,
        registers(0x8000, 6),
        0x8000,
        &[0x7777, 0x1515, 0x1414, 0x1313, 0x1212, 0xb0b, 0x5005],
    );
    let all_caller = caller(0x8038, [0xb0b, 0x1212, 0x1313, 0x1414, 0x1515, 0x7777]);
    vec![
        gives("P12", p12(), p12_caller),
        refuses("P12, last byte gone", without_last(p12()), (27, 0)),
        refuses("P12, first byte gone", without_first(p12()), (27, 0)),
        gives("P12 in a long window", p12_far_in(), far_caller),
        gives("two pushed", two_pushed(), pushed_caller),
        refuses(
            "two pushed, last byte gone",
            without_last(two_pushed()),
            (27, 0),
        ),
        refuses(
            "two pushed, first byte gone",
            without_first(two_pushed()),
            (27, 0),
        ),
        gives("frame-based with a gap", gap, gap_caller),
        gives("six pushed, the last number", all_six, all_caller),
    ]
}

/// A frame of the return address alone; a slot, then so many bytes more.
fn bare(rsp: u64, base: u64, more: usize) -> Case<6> {
    let mut case = case(0x0201_0000, registers(rsp, 6), base, &[0x5005]);
    case.bytes.resize(8 + more, 0);
    case
}

fn edges() -> Vec<Named<6>> {
    let caller = |sp| Registers {
        pc: 0x5005,
        ..registers(sp, 6)
    };
    let mut empty = bare(END - 7, 0, 0);
    empty.bytes.clear();
    let below_0 = case(0x01ff_0001, registers(1, 0x7f7), 0, &[0; 257]);
    vec![
        gives("window at 0", bare(0, 0, 0), caller(8)),
        gives(
            "window's end and CFA at the highest",
            bare(END - 8, END - 8, 0),
            caller(END),
        ),
        refuses(
            "window's end one above the highest",
            bare(END - 8, END - 8, 1),
            (26, 0),
        ),
        refuses("CFA one above the highest", bare(END - 7, 0, 0), (26, 0)),
        refuses("the same, window empty", empty, (26, 0)),
        refuses("lowest slot at -1", below_0.clone(), (27, 0)),
        gives(
            "lowest slot at 0",
            Case {
                registers: registers(1, 0x7f8),
                ..below_0
            },
            Registers {
                pc: 0,
                sp: 0x808,
                saved: [0, 0x12, 0x13, 0x14, 0x15, 0],
            },
        ),
    ]
}

/// Words that no window helps.
fn words() -> Vec<Named<6>> {
    let word = |name, word, answer| {
        let case = Case { word, ..p12() };
        refuses(name, case, answer)
    };
    vec![
        word("null", 0, (20, 0)),
        word("null with other bits", 0xf0ff_ffff, (20, 0)),
        word("DWARF", 0x04ab_cdef, (21, 0xab_cdef)),
        word("kind 5", 0x0501_0001, (22, 5)),
        word("kind 15", 0xffff_ffff, (22, 15)),
        word("count 6 with 720", 0x02ff_1ad0, (23, 0)),
        word("count 7", 0x02ff_1c00, (23, 0)),
        word("count 1 with 6", 0x02ff_0406, (23, 0)),
        word("the same without room", 0x0201_0406, (23, 0)),
        word("indirect, count 1 with 6", 0x0300_0406, (23, 0)),
        word("indirect", 0x0300_0405, (25, 0)),
        word("size without room for the pushed", 0x0202_0800, (24, 0)),
        word("size 0", 0x0200_0000, (24, 0)),
        word("rbp in a field", 0x0101_0006, (24, 0)),
        word("7 in a field", 0x0101_0007, (24, 0)),
        word("rbx in two fields", 0x0102_0009, (24, 0)),
        word("field 1 of offset 8", 0x0101_0008, (24, 0)),
    ]
}
