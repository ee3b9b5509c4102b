//! What is asked of a section: addresses, cursors, lists.

use super::made::pick;
use crate::ffi::section::{Cursor, Lists};
use crate::model::{Refusal, Section};
use crate::random::Random;

const RANDOM_ADDRESSES: usize = 4;
const CURSORS: usize = 8;
const LISTS: usize = 3;
/// Numbers at which lists are tried, besides those close to the section's own.
const NUMBERS: [u32; 8] = [
    0,
    1,
    28,
    0x1555_5556,
    0x4000_0000,
    0x8000_0000,
    0xffff_fffc,
    0xffff_ffff,
];

/// Every page's first address and every function's start, which are also all ends, with the
/// addresses beside them; both ends of the numbers; some at random. Rising.
pub fn addresses(section: &Result<Section, Refusal>, random: &mut Random) -> Vec<u32> {
    let mut addresses = vec![0, u32::MAX];
    addresses.extend((0..RANDOM_ADDRESSES).map(|_| random.next()));
    if let Ok(section) = section {
        for page in 0..section.pages() {
            around(section.first_address(page), &mut addresses);
        }
        for opened in (1..section.pages()).filter_map(|next| section.open(next - 1).ok()) {
            for index in 0..opened.functions() {
                // Past 2^32 the address that a wrapped sum would name.
                around(opened.whole_start(index) as u32, &mut addresses);
            }
        }
    }
    addresses.sort_unstable();
    addresses.dedup();
    addresses
}

fn around(address: u32, addresses: &mut Vec<u32>) {
    addresses.extend([address.wrapping_sub(1), address, address.wrapping_add(1)]);
}

/// Any two numbers: near the section's own, and far from them.
pub fn cursors(section: &Result<Section, Refusal>, random: &mut Random) -> Vec<Cursor> {
    let pages = section.as_ref().map_or(0, Section::pages);
    let number = |near: u32, random: &mut Random| match random.below(8) {
        0 => random.next(),
        1 => u32::MAX - random.below(2),
        2 => random.below(0x1_0002),
        _ => random.below(near.saturating_add(2)),
    };
    let cursor = |_| (number(pages, random), number(8, random));
    (0..CURSORS).map(cursor).collect()
}

/// The section's own lists with numbers changed.
pub fn lists(section: &Result<Section, Refusal>, random: &mut Random) -> Vec<Lists> {
    let own = section.as_ref().map_or(Lists::default(), Section::lists);
    (0..LISTS).map(|_| changed(own, random)).collect()
}

fn changed(own: Lists, random: &mut Random) -> Lists {
    let mut lists = own;
    for _ in 0..1 + random.below(2) {
        let number = match random.below(4) {
            0 => &mut lists.global_opcodes_offset,
            1 => &mut lists.global_opcodes_len,
            2 => &mut lists.pages_offset,
            _ => &mut lists.pages_len,
        };
        *number = match random.below(8) {
            0 => random.next(),
            1 => *pick(random, &NUMBERS),
            2 => random.below(0x80),
            _ => number.wrapping_add(random.below(5)).wrapping_sub(2),
        };
    }
    lists
}
