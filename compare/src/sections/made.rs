//! Well-formed sections at random, with pages of both kinds.

use super::plan::{Function, Page, Plan, COMPRESSED, REGULAR};
use crate::random::Random;

/// Pages and functions are drawn from these, so that most sections stay small.
const PAGES: [u32; 8] = [0, 1, 1, 2, 2, 3, 4, 6];
const FUNCTIONS: [u32; 8] = [1, 1, 2, 3, 4, 6, 9, 24];

/// What an opcode word is drawn by.
pub type Word<'a> = &'a dyn Fn(&mut Random) -> u32;

pub fn plan(random: &mut Random) -> Plan {
    plan_of(&Random::next, random)
}

pub fn plan_of(word: Word, random: &mut Random) -> Plan {
    let globals = words(word, random, 5);
    let mut address = match random.below(4) {
        0 => 0,
        1 => random.below(0x1_0000),
        _ => random.below(0xf000_0000),
    };
    let mut pages = Vec::new();
    for _ in 0..*pick(random, &PAGES) {
        let page = page(word, random, &mut address, globals.len() as u32);
        pages.push(page);
    }
    let has_end = !pages.is_empty() || random.below(2) == 0;
    Plan {
        globals,
        pages,
        end: has_end.then_some(address),
    }
}

/// A page from `address` on, which is moved to its end.
fn page(word: Word, random: &mut Random, address: &mut u32, globals: u32) -> Page {
    let compressed = random.below(2) == 0;
    let mut locals = words(word, random, 4);
    if globals == 0 && locals.is_empty() {
        locals.push(word(random));
    }
    let opcodes = globals + locals.len() as u32;
    let first = *address;
    let largest_gap = *pick(random, &[1, 4, 0x100, 0x8000]);
    let mut functions = Vec::new();
    for _ in 0..*pick(random, &FUNCTIONS) {
        let opcode = if compressed {
            random.below(opcodes)
        } else {
            word(random)
        };
        let start = *address;
        functions.push(Function { start, opcode });
        *address += 1 + random.below(largest_gap);
    }
    Page {
        kind: if compressed { COMPRESSED } else { REGULAR },
        first,
        functions,
        locals,
    }
}

/// Fewer than `bound` words.
fn words(word: Word, random: &mut Random, bound: u32) -> Vec<u32> {
    (0..random.below(bound)).map(|_| word(random)).collect()
}

pub fn pick<'a, T>(random: &mut Random, items: &'a [T]) -> &'a T {
    &items[random.below(items.len() as u32) as usize]
}
