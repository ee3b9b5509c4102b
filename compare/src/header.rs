//! The constants of Apple's `compact_unwind_encoding.h`, held to our fields.

mod arm64;
mod constants;
mod permute;
mod x86_64;

use crate::ffi;
use crate::random::Random;
use crate::tally::{Report, Tally};
use constants::Constants;

/// Random words for each constant.
const WORDS: u32 = 200_000;

/// A mode's constant, and our cases of a word in that mode.
type Mode = (&'static str, &'static [u8]);

/// A field's constant, the mode in which it stands, the unit in which it counts, and ours.
type Field<Opcode> = (&'static str, &'static str, u32, fn(&Opcode) -> u32);

pub fn compare(report: &mut Report) -> std::io::Result<()> {
    let constants = Constants::read()?;
    report.add(ignored_bits(&constants));
    x86_64::compare(report, &constants);
    arm64::compare(report, &constants);
    report.add(permute::compare());
    report.add(constants.unheld());
    Ok(())
}

/// A field of a word as the header has it: the bits of a mask, moved down.
fn field(word: u32, mask: u32) -> u32 {
    (word & mask) >> mask.trailing_zeros()
}

fn random_words() -> impl Iterator<Item = u32> {
    let mut random = Random::new(5);
    (0..WORDS).map(move |_| random.next())
}

/// Words of one mode: the low 12 bits alone, each value of them, and random ones.
fn words(constants: &Constants, mask: &str, mode: &str, check: impl FnMut(u32)) {
    let (mask, mode) = (constants.get(mask), constants.get(mode));
    (0..1 << 12)
        .chain(random_words())
        .map(|word| word & !mask | mode)
        .for_each(check);
}

fn input(name: &str, word: u32) -> String {
    format!("{name}, word {word:#010x}")
}

/// The bits above the mode change no answer.
fn ignored_bits(constants: &Constants) -> Tally {
    let mut tally = Tally::new("header, bits above the mode");
    for name in [
        "UNWIND_IS_NOT_FUNCTION_START",
        "UNWIND_HAS_LSDA",
        "UNWIND_PERSONALITY_MASK",
    ] {
        let mask = constants.get(name);
        for word in random_words() {
            let without = word & !mask;
            tally.check(
                || input(name, word),
                ffi::opcode_kind(word),
                ffi::opcode_kind(without),
            );
            tally.check(
                || input(name, word),
                ffi::parse_x86_64(word),
                ffi::parse_x86_64(without),
            );
            tally.check(
                || input(name, word),
                ffi::parse_arm64(word),
                ffi::parse_arm64(without),
            );
        }
    }
    tally
}

/// The kind is the mode, and our case is one of the mode's; without a mode, 0 is the null one.
fn modes(
    name: &str,
    constants: &Constants,
    mask: &str,
    modes: &[Mode],
    unrecognized: u8,
    case: impl Fn(u32) -> u8,
) -> Tally {
    let mut tally = Tally::new(name);
    let mask = constants.get(mask);
    let modes: Vec<_> = modes
        .iter()
        .map(|&(mode, cases)| (constants.get(mode), cases))
        .collect();
    for word in random_words() {
        tally.check(
            || input("mode", word),
            ffi::opcode_kind(word).into(),
            field(word, mask),
        );
        let mode = modes.iter().find(|(mode, _)| word & mask == *mode);
        let without = if word & mask == 0 {
            [0]
        } else {
            [unrecognized]
        };
        let cases = mode.map_or(&without[..], |(_, cases)| cases);
        let case = case(word);
        tally.check(
            || input(&format!("case {case}, not {cases:?}"), word),
            cases.contains(&case),
            true,
        );
    }
    tally
}
