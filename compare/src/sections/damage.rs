//! Sections with something wrong: in what they say, or in their bytes.

use super::made::pick;
use super::plan::{Field, Function, Page, Plan, Written, COMPRESSED, SENTINEL};
use crate::random::Random;

/// Numbers whose products or sums with others pass 2^32, and those around lists' widths.
const NUMBERS: [u32; 16] = [
    0,
    1,
    2,
    3,
    4,
    8,
    12,
    28,
    0x0100_0000,
    0x1555_5556,
    0x4000_0000,
    0x7fff_ffff,
    0x8000_0000,
    0xffff_fff4,
    0xffff_fffc,
    0xffff_ffff,
];

pub fn plan(random: &mut Random, plan: &mut Plan) {
    for _ in 0..1 + random.below(2) {
        if random.below(8) == 0 {
            raise(random, plan);
            continue;
        }
        let globals = plan.globals.len() as u32;
        match plan.pages.len() as u32 {
            0 => plan.end = Some(random.next()),
            pages => {
                let page = random.below(pages) as usize;
                damage_page(random, &mut plan.pages[page], globals);
            }
        }
    }
}

/// Moves everything up, so that the last page begins just below 2^32 and runs past it.
fn raise(random: &mut Random, plan: &mut Plan) {
    let Some(last) = plan.pages.last() else {
        return;
    };
    let by = (u32::MAX - 1 - random.below(0x200)).wrapping_sub(last.first);
    for page in &mut plan.pages {
        page.first = page.first.saturating_add(by);
        for function in &mut page.functions {
            function.start = function.start.wrapping_add(by);
        }
    }
    plan.end = Some(u32::MAX);
}

fn damage_page(random: &mut Random, page: &mut Page, globals: u32) {
    let functions = page.functions.len() as u32;
    let one = random.below(functions.max(1)) as usize;
    let other = random.below(functions.max(1)) as usize;
    match random.below(9) {
        0 => page.functions.clear(),
        1 => {
            page.kind = *pick(
                random,
                &[0, SENTINEL, 4, 0x0002_0000, 0x0100_0003, u32::MAX],
            )
        }
        2 => page.first = page.first.wrapping_add(*pick(random, &NUMBERS)),
        3 => page.first = page.first.wrapping_sub(1 + random.below(16)),
        4 if functions > 0 => page.functions.swap(one, other),
        5 if functions > 0 => page.functions[one].start = page.functions[other].start,
        6 if functions > 0 => damage_start(random, &mut page.functions[one]),
        7 if functions > 0 && page.kind == COMPRESSED => {
            let past = globals + page.locals.len() as u32 + random.below(3);
            page.functions[one].opcode = (*pick(random, &[past, past, 255])).min(255);
        }
        _ => page.locals.truncate(random.below(2) as usize),
    }
}

fn damage_start(random: &mut Random, function: &mut Function) {
    let by = match random.below(3) {
        0 => random.below(0x100),
        1 => random.below(0x0100_0000),
        _ => *pick(random, &NUMBERS),
    };
    function.start = function.start.wrapping_add(by);
}

pub fn bytes(random: &mut Random, written: &mut Written) {
    for _ in 0..1 + random.below(3) {
        damage_once(random, written);
    }
}

fn damage_once(random: &mut Random, Written { bytes, fields }: &mut Written) {
    let place = random.below(bytes.len() as u32 + 1) as usize;
    match random.below(16) {
        0 if place < bytes.len() => bytes[place] = random.next() as u8,
        1 => bytes.insert(place, random.next() as u8),
        2 if place < bytes.len() => {
            bytes.remove(place);
        }
        3 => bytes.truncate(place),
        4 | 5 => bytes.truncate(bytes.len().saturating_sub(1 + random.below(9) as usize)),
        6 => bytes.extend_from_slice(&random.bytes::<5>()),
        _ => {
            let field = *pick(random, fields);
            damage_field(random, bytes, field);
        }
    }
}

/// Replaces a number, unless a cut took it away.
fn damage_field(random: &mut Random, bytes: &mut [u8], Field { offset, width }: Field) {
    let length = bytes.len() as u32;
    let Some(field) = bytes.get_mut(offset..offset + width) else {
        return;
    };
    let old = field
        .iter()
        .rev()
        .fold(0, |n, &byte| n << 8 | u32::from(byte));
    let new = match random.below(8) {
        0 => random.next(),
        1 => old.wrapping_add(random.below(3)).wrapping_sub(1),
        2 => old.wrapping_add(4),
        3 => old.wrapping_sub(4),
        4 => random.below(length + 2),
        5 => (length + 1).wrapping_sub(*pick(random, &NUMBERS[..8])),
        6 => (length + 1)
            .wrapping_sub(*pick(random, &NUMBERS[..8]))
            .wrapping_sub(offset as u32),
        _ => *pick(random, &NUMBERS),
    };
    field.copy_from_slice(&new.to_le_bytes()[..width]);
}

/// The section with another version in its header.
pub fn version(section: &[u8], version: u32) -> Vec<u8> {
    [&version.to_le_bytes(), &section[4..]].concat()
}

/// Bytes at random; most have a header of version 1 whose lists can be read.
pub fn noise(random: &mut Random) -> Vec<u8> {
    let length = random.below(160);
    let mut bytes: Vec<u8> = (0..length).map(|_| noise_byte(random)).collect();
    if random.below(8) > 0 && length >= 28 {
        let pages = random.below((length - 28) / 12 + 1);
        let globals = random.below((length - 28) / 4 + 1);
        for (offset, number) in [
            (0, 1),
            (4, random.below(length - 4 * globals + 1)),
            (8, globals),
            (20, random.below(length - 12 * pages + 1)),
            (24, pages),
        ] {
            bytes[offset..offset + 4].copy_from_slice(&number.to_le_bytes());
        }
    }
    bytes
}

/// Small bytes are met often, so that offsets, counts and kinds make sense by chance.
fn noise_byte(random: &mut Random) -> u8 {
    match random.below(4) {
        0 => random.next() as u8,
        1 => *pick(random, &[1, 2, 2, 3, 3, 4, 8, 12, 16, 28]),
        _ => 0,
    }
}
