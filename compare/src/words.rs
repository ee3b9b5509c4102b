//! Opcode words: kind, specific bits, and all that x86_64 and arm64 read from them.

use crate::ffi;
use crate::model::frame::word;
use crate::oracle::{is_asked_arm64, told, told_alike_x86_64, Release, RELEASES};
use crate::random::Random;
use crate::tally::{Report, Tally};

/// Words for each kind and each value of the low 16 bits.
const DRAWS: u32 = 4;
const RANDOM_WORDS: u32 = 4_000_000;

pub fn compare(report: &mut Report) {
    report.add(model_x86_64());
    for release in &RELEASES {
        report.add(group("bitfield", release, check_bitfield));
        report.add(group("x86_64 words", release, check_x86_64));
        report.add_listed(told_apart(release));
        report.add(group("arm64 words", release, check_arm64));
        for group in read_otherwise(release) {
            report.add_listed(group);
        }
    }
}

fn group(name: &str, release: &Release, check: fn(&mut Tally, &Release, u32)) -> Tally {
    let mut tally = Tally::new(format!("{name}, {}", release.name));
    for_each_word(|word| check(&mut tally, release, word));
    tally
}

fn for_each_word(mut check: impl FnMut(u32)) {
    let mut random = Random::new(3);
    for kind in 0..16 {
        for low in 0..1 << 16 {
            for _ in 0..DRAWS {
                let word = random.next() & 0xffff_0000 | low;
                check(of_kind(word, kind));
            }
        }
    }
    for _ in 0..RANDOM_WORDS {
        check(random.next());
    }
}

/// The whole answer, with what the Rust doesn't tell.
fn model_x86_64() -> Tally {
    let mut tally = Tally::new("x86_64 words, model");
    for_each_word(|word| {
        let theirs = word::parse_x86_64(word);
        tally.check(|| input(word), ffi::parse_x86_64(word), theirs);
    });
    tally
}

fn check_bitfield(tally: &mut Tally, release: &Release, word: u32) {
    tally.check(
        || input(word),
        (ffi::opcode_kind(word), ffi::opcode_specific_bits(word)),
        (
            (release.opcode_kind)(word),
            (release.opcode_specific_bits)(word),
        ),
    );
}

fn check_x86_64(tally: &mut Tally, release: &Release, word: u32) {
    let ours = told::word(ffi::parse_x86_64(word));
    tally.check(|| input(word), ours, (release.parse_x86_64)(word));
}

/// The frame-based words of x86_64 with a field 7, each beside the one that has 0 there: whether the
/// two have one answer. They rise, so the first that differs is the smallest.
fn told_apart(release: &Release) -> Tally {
    let mut tally = Tally::new(format!("x86_64 words, fields 0 and 7, {}", release.name));
    for word in 0x0100_0000..0x0100_8000 {
        let other = told_alike_x86_64(word);
        if other != word {
            tally.check(
                || format!("words {other:#010x} and {word:#010x}, alike"),
                ffi::parse_x86_64(other) == ffi::parse_x86_64(word),
                (release.parse_x86_64)(other) == (release.parse_x86_64)(word),
            );
        }
    }
    tally
}

fn check_arm64(tally: &mut Tally, release: &Release, word: u32) {
    if is_asked_arm64(word) {
        parse_arm64(tally, release, word);
    }
}

/// The other words of arm64, which are frame-based: those without a d pair, and those with one.
/// They rise, so the first that differs is the smallest.
fn read_otherwise(release: &Release) -> [Tally; 2] {
    [
        ("bits 5 to 7", 0x0400_0000..0x0400_0100),
        ("bits 8 to 11", 0x0400_0100..0x0400_1000),
    ]
    .map(|(bits, words)| {
        let mut tally = Tally::new(format!("arm64 words, {bits}, {}", release.name));
        words
            .filter(|&word| !is_asked_arm64(word))
            .for_each(|word| parse_arm64(&mut tally, release, word));
        tally
    })
}

fn parse_arm64(tally: &mut Tally, release: &Release, word: u32) {
    tally.check(
        || input(word),
        ffi::parse_arm64(word),
        (release.parse_arm64)(word),
    );
}

/// The word with its kind replaced.
pub fn of_kind(word: u32, kind: u32) -> u32 {
    word & 0xf0ff_ffff | kind << 24
}

pub fn input(word: u32) -> String {
    format!("word {word:#010x}")
}
