//! The sorts of sections that are made: S and what lies beside it, made at random, and damaged.

use super::corpus::Real;
use super::plan::{Layout, Written};
use super::{damage, made, small};
use crate::random::Random;

const MADE: usize = 60_000;
const WRONG_PLANS: usize = 60_000;
const DAMAGED: usize = 100_000;
const NOISE: usize = 20_000;
const DAMAGED_REAL: usize = 700;
/// Bytes of a real section that is damaged, at most.
const SMALL: usize = 5_000;

pub struct Family<'a> {
    pub name: &'static str,
    pub sections: Box<dyn Iterator<Item = Vec<u8>> + 'a>,
}

pub fn all(real: &[Real]) -> [Family<'_>; 8] {
    [
        family("S cut at", small::prefixes()),
        family("S changed", small::mutations()),
        family("made", made_sections()),
        family("made wrong", wrong_sections()),
        family("damaged", damaged_sections()),
        family("noise", noise()),
        family("real, damaged", damaged_real_sections(real)),
        family("real, another version", other_versions(real)),
    ]
}

fn family<'a>(name: &'static str, sections: impl Iterator<Item = Vec<u8>> + 'a) -> Family<'a> {
    let sections = Box::new(sections);
    Family { name, sections }
}

fn made_sections() -> impl Iterator<Item = Vec<u8>> {
    let mut random = Random::new(14);
    (0..MADE).map(move |_| {
        let plan = made::plan(&mut random);
        plan.write(&mut Layout::Random(&mut random)).bytes
    })
}

/// Laid out as they should be, and wrong in what they say.
fn wrong_sections() -> impl Iterator<Item = Vec<u8>> {
    let mut random = Random::new(15);
    (0..WRONG_PLANS).map(move |_| {
        let mut plan = made::plan(&mut random);
        damage::plan(&mut random, &mut plan);
        plan.write(&mut Layout::Random(&mut random)).bytes
    })
}

/// Wrong in their bytes, and every fourth in what they say as well.
fn damaged_sections() -> impl Iterator<Item = Vec<u8>> {
    let mut random = Random::new(16);
    (0..DAMAGED).map(move |i| {
        let mut plan = made::plan(&mut random);
        if i % 4 == 0 {
            damage::plan(&mut random, &mut plan);
        }
        let mut written = plan.write(&mut Layout::Random(&mut random));
        damage::bytes(&mut random, &mut written);
        written.bytes
    })
}

/// Small real sections that are wrong in their bytes.
fn damaged_real_sections(real: &[Real]) -> impl Iterator<Item = Vec<u8>> + '_ {
    let small: Vec<_> = real
        .iter()
        .filter(|real| real.bytes.len() < SMALL)
        .collect();
    let mut random = Random::new(18);
    let count = if small.is_empty() { 0 } else { DAMAGED_REAL };
    (0..count).map(move |i| {
        let mut written = Written::of_words(&small[i % small.len()].bytes);
        damage::bytes(&mut random, &mut written);
        written.bytes
    })
}

/// Each real section with other versions: near 1, 1 as big-endian, and the highest.
fn other_versions(real: &[Real]) -> impl Iterator<Item = Vec<u8>> + '_ {
    real.iter().flat_map(|real| {
        [0, 2, 0x0100_0000, u32::MAX].map(|version| damage::version(&real.bytes, version))
    })
}

fn noise() -> impl Iterator<Item = Vec<u8>> {
    let mut random = Random::new(17);
    (0..NOISE).map(move |_| damage::noise(&mut random))
}
