//! The worked examples of docs/FORMAT.md, 13: P1 to P12 by their names, and the others.

use crate::ffi::frame::{step_x86_64, Registers, Step, Window};
use crate::ffi::section::{
    self as sections, LookupAnswer, FOUND, IN_GLOBALS, IN_LOCALS, NONE, REFUSED,
};
use crate::ffi::{self, OpcodeX86_64, Permutation, PERMUTATION_REFUSED};
use crate::sections::corpus::iterated;
use crate::sections::small::s;
use crate::tally::{Report, Tally};

pub fn compare(report: &mut Report) {
    let mut proved = Tally::new("worked examples, P1 to P12");
    lookups(&mut proved);
    permutations(&mut proved);
    word(&mut proved);
    step(&mut proved);
    report.add(proved);
    let mut others = Tally::new("worked examples, others");
    shorter_windows(&mut others);
    first_refused(&mut others);
    listing(&mut others);
    cut_by_one(&mut others);
    report.add(others);
}

/// Start, end and opcode; page, index, and where the opcode stands.
type Function = (u32, u32, u32, u32, u32, u8);

/// S's.
const FIRST: Function = (0x1000, 0x1040, 0x0101_0001, 0, 0, IN_GLOBALS);
const SECOND: Function = (0x1040, 0x1100, 0x0203_0800, 0, 1, IN_LOCALS);

/// Function, outcome and refusal of a lookup.
fn told(found: LookupAnswer) -> (Function, u8, u8) {
    let LookupAnswer {
        start,
        end,
        opcode,
        page,
        index,
        origin,
        ..
    } = found;
    let function = (start, end, opcode, page, index, origin);
    (function, found.outcome, found.refusal)
}

fn lookups(tally: &mut Tally) {
    let none = ((0, 0, 0, 0, 0, 0), NONE, 0);
    for (name, address, answer) in [
        ("P1", 0x0fff, none),
        ("P2", 0x1000, (FIRST, FOUND, 0)),
        ("P3", 0x103f, (FIRST, FOUND, 0)),
        ("P4", 0x1040, (SECOND, FOUND, 0)),
        ("P5", 0x1100, none),
    ] {
        let found = sections::lookup(&s(), address);
        tally.check(|| name.into(), told(found), answer);
    }
}

fn decoded(registers: [u8; 6]) -> Permutation {
    Permutation {
        refusal: 0,
        registers,
    }
}

const NOT_DECODED: Permutation = Permutation {
    refusal: PERMUTATION_REFUSED,
    registers: [0; 6],
};

fn permutations(tally: &mut Tally) {
    for (name, count, encoding, answer) in [
        ("P6", 6, 719, decoded([6, 5, 4, 3, 2, 1])),
        ("P7", 6, 720, NOT_DECODED),
        ("P8", 5, 719, decoded([6, 5, 4, 3, 2, 0])),
        ("P9", 0, 1023, decoded([0; 6])),
        ("P10", 7, 0, NOT_DECODED),
    ] {
        let permutation = ffi::decode_permutation_6(count, encoding);
        tally.check(|| name.into(), permutation, answer);
    }
}

fn word(tally: &mut Tally) {
    let lists_rbx_and_r12 = OpcodeX86_64 {
        value: 24,
        answer: 2,
        popped_regs: [1, 2, 0, 0, 0, 0],
        ..OpcodeX86_64::default()
    };
    let parsed = ffi::parse_x86_64(0x0203_0800);
    tally.check(|| "P11".into(), parsed, lists_rbx_and_r12);
}

const REGISTERS: Registers<6> = Registers {
    pc: 0x401,
    sp: 0x6f00,
    saved: [0xb, 0x12, 0x13, 0x14, 0x15, 0x7008],
};

/// The window of P12 (docs/FORMAT.md, 13.1): rbx, rbp and the return address at 0x7000 to 0x7018.
fn window() -> Vec<u8> {
    let slots = [0xb0b_u64, 0x7777, 0x5005];
    slots.into_iter().flat_map(u64::to_le_bytes).collect()
}

fn stepped(base: u64, bytes: &[u8]) -> Step<6> {
    step_x86_64(0x0101_0001, REGISTERS, Window { base, bytes })
}

fn step(tally: &mut Tally) {
    let caller = Registers {
        pc: 0x5005,
        sp: 0x7018,
        saved: [0xb0b, 0x12, 0x13, 0x14, 0x15, 0x7777],
    };
    let answer = Step {
        refusal: 0,
        value: 0,
        registers: caller,
    };
    tally.check(|| "P12".into(), stepped(0x7000, &window()), answer);
}

fn shorter_windows(tally: &mut Tally) {
    let refused = Step {
        refusal: 27,
        value: 0,
        registers: REGISTERS,
    };
    let input = || "P12's window, a byte shorter".into();
    let bytes = window();
    tally.check(input, stepped(0x7000, &bytes[..23]), refused);
    tally.check(input, stepped(0x7001, &bytes[1..]), refused);
}

fn first_refused(tally: &mut Tally) {
    for (count, encoding) in (1..).zip([6, 30, 120, 360, 720, 720]) {
        let refusals = [encoding - 1, encoding].map(|encoding| {
            let Permutation { refusal, .. } = ffi::decode_permutation_6(count, encoding);
            refusal
        });
        let input = || format!("count {count}, encodings {} and the next", encoding - 1);
        tally.check(input, refusals, [0, PERMUTATION_REFUSED]);
    }
}

/// S's whole output.
const LISTING: [&str; 3] = [
    "00001000 00001040 01010001",
    "00001040 00001100 02030800",
    "end 2",
];

fn listing(tally: &mut Tally) {
    let lines = iterated(&s());
    let lines: Vec<&str> = lines.iter().map(String::as_str).collect();
    tally.check(|| "S listed".into(), &lines[..], &LISTING);
}

fn cut_by_one(tally: &mut Tally) {
    let section = &s()[..79];
    let input = || "S's first 79 bytes".into();
    let next = sections::next(section, (0, 0));
    tally.check(input, (next.outcome, next.refusal), (REFUSED, 11));
    let found = sections::lookup(section, 0x1000);
    tally.check(input, told(found), (FIRST, FOUND, 0));
}
