//! arm64's cases.

use super::{case, gives, refuses, without_first, without_last, Case, Named};
use crate::ffi::frame::Registers;
use crate::model::frame::arm64::{X29, X30};

/// Every register has a number of its own; sp and x29 are given.
fn registers(sp: u64, x29: u64) -> Registers<20> {
    let mut saved = std::array::from_fn(|k| 0x1900 + k as u64);
    saved[X29] = x29;
    Registers {
        pc: 0x401,
        sp,
        saved,
    }
}

const END: u64 = u64::MAX;

pub fn all() -> Vec<Named<20>> {
    [frames(), frameless(), words()]
        .into_iter()
        .flatten()
        .collect()
}

/// d9, d8, x20, x19, then x29 and x30 at 0x9000 to 0x9030.
fn two_pairs() -> Case<20> {
    let slots = [0xd9, 0xd8, 0x20, 0x19, 0x7777, 0x5005];
    case(0x0400_0101, registers(1, 0x9020), 0x9000, &slots)
}

/// No pair, and all bits that are ignored.
fn bare() -> Case<20> {
    case(0xf4ff_f0e0, registers(1, 0x9000), 0x9000, &[0x7777, 0x5005])
}

fn frames() -> Vec<Named<20>> {
    let caller = |sp| {
        let mut caller = registers(sp, 0x7777);
        (caller.pc, caller.saved[X30]) = (0x5005, 0x5005);
        caller
    };
    let mut pairs_caller = caller(0x9030);
    pairs_caller.saved[..2].copy_from_slice(&[0x19, 0x20]);
    pairs_caller.saved[12..14].copy_from_slice(&[0xd8, 0xd9]);
    let above = Case {
        registers: registers(1, END - 15),
        ..bare()
    };
    let below_0 = Case {
        registers: registers(1, 31),
        base: 0,
        ..two_pairs()
    };
    vec![
        gives("no pairs", bare(), caller(0x9010)),
        gives("x19/x20 and d8/d9", two_pairs(), pairs_caller),
        refuses("pairs, last byte gone", without_last(two_pairs()), (27, 0)),
        refuses(
            "pairs, first byte gone",
            without_first(two_pairs()),
            (27, 0),
        ),
        refuses("CFA one above the highest", above, (26, 0)),
        refuses("lowest slot at -1", below_0, (27, 0)),
    ]
}

fn frameless() -> Vec<Named<20>> {
    let none = |word, sp, base| case(word, registers(sp, 29), base, &[]);
    let caller = |sp| Registers {
        pc: 0x190b,
        ..registers(sp, 29)
    };
    let mut long = none(0x0200_1000, 0x10, END);
    long.bytes.push(0);
    vec![
        gives("size 0, no window", none(0x0200_0fff, 7, 0), caller(7)),
        gives(
            "the largest size",
            none(0x02ff_f000, 0x10, END),
            caller(0x1_0000),
        ),
        gives(
            "CFA at the highest",
            none(0x0200_1000, END - 16, 0),
            caller(END),
        ),
        refuses(
            "frameless, CFA one above the highest",
            none(0x0200_1000, END - 15, 0),
            (26, 0),
        ),
        refuses(
            "frameless, window's end one above the highest",
            long,
            (26, 0),
        ),
    ]
}

/// Words that no window helps.
fn words() -> Vec<Named<20>> {
    let word = |name, word, answer| {
        let case = Case {
            word,
            ..two_pairs()
        };
        refuses(name, case, answer)
    };
    vec![
        word("null", 0x0000_0101, (20, 0)),
        word("DWARF", 0xf3ab_cdef, (21, 0xab_cdef)),
        word("kind 1", 0x0100_0101, (22, 1)),
        word("kind 5", 0x0500_0101, (22, 5)),
    ]
}
