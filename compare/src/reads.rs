//! Reads of 2, 4 and 8 bytes and grants of any number of bytes, against `src/reader.rs`.

use crate::ffi::{self, Number};
use crate::oracle::{Release, RELEASES};
use crate::random::Random;
use crate::tally::{Report, Tally};

const LONGEST: usize = 20;
/// Places in memory that a section is put at, so that every alignment is met.
const PLACES: usize = 8;

type Read = fn(&[u8], usize) -> Number;

pub fn compare(report: &mut Report) {
    for release in &RELEASES {
        report.add(reads("u16", release, ffi::read_u16, release.read_u16));
        report.add(reads("u32", release, ffi::read_u32, release.read_u32));
        report.add(reads("u64", release, ffi::read_u64, release.read_u64));
        report.add(grants(release));
    }
}

fn reads(width: &str, release: &Release, ours: Read, theirs: Read) -> Tally {
    let mut tally = Tally::new(format!("reads of {width}, {}", release.name));
    for_each_section(|section| {
        for offset in numbers() {
            tally.check(
                || input(section, offset),
                ours(section, offset),
                theirs(section, offset),
            );
        }
    });
    tally
}

fn grants(release: &Release) -> Tally {
    let mut tally = Tally::new(format!("grants, {}", release.name));
    for_each_section(|section| {
        for offset in numbers() {
            for bytes in numbers() {
                tally.check(
                    || format!("{bytes} bytes, {}", input(section, offset)),
                    ffi::is_granted(section, offset, bytes),
                    (release.is_granted)(section, offset, bytes),
                );
            }
        }
    });
    tally
}

/// Random bytes of each length, in the midst of others.
fn for_each_section(mut check: impl FnMut(&[u8])) {
    let mut random = Random::new(4);
    for length in 0..=LONGEST {
        for place in 0..PLACES {
            let memory: [u8; PLACES + LONGEST + 8] = random.bytes();
            check(&memory[place..place + length]);
        }
    }
}

/// Offsets and byte counts: small ones, ones near each power of two from 2^31, and near 2^64.
fn numbers() -> impl Iterator<Item = usize> {
    let powers = (31..64).flat_map(|bit| [(1usize << bit) - 1, 1 << bit, (1 << bit) + 1]);
    (0..=24).chain(powers).chain(usize::MAX - 24..=usize::MAX)
}

fn input(section: &[u8], offset: usize) -> String {
    format!(
        "offset {offset:#x} of {section:02x?}, length {}",
        section.len()
    )
}
