//! x86_64's frame-based words with every combination of the five fields, each of which is absent, a
//! register or unknown; and the lists of frameless ones, which have nothing unknown.

use crate::ffi::frame::rule_x86_64;
use crate::ffi::{self, ABSENT, REGISTER, UNKNOWN};
use crate::model::frame::named::fields;
use crate::model::frame::{rule, word, x86_64};
use crate::random::Random;
use crate::tally::{Report, Tally};
use crate::words::input;

/// Bits 16 to 23: around what the fields need, and the highest.
const OFFSETS: [u32; 8] = [0, 1, 2, 3, 4, 5, 6, 255];

pub fn compare(report: &mut Report) {
    let mut whole = Tally::new("x86_64 fields, words");
    let mut rules = Tally::new("x86_64 fields, rules");
    for word in words() {
        let theirs = word::parse_x86_64(word);
        whole.check(|| input(word), ffi::parse_x86_64(word), theirs);
        let theirs = rule(x86_64::frame(word));
        rules.check(|| input(word), rule_x86_64(word), theirs);
    }
    report.add(whole);
    report.add(states());
    report.add(sevens());
    report.add(rules);
    report.add(lists());
}

/// Each combination at each offset, without the bits that say nothing, 15 and 28 to 31, and with
/// some of them.
fn words() -> impl Iterator<Item = u32> {
    let mut random = Random::new(29);
    let plain = |fields| OFFSETS.map(|offset| 1 << 24 | offset << 16 | fields);
    (0..1 << 15)
        .flat_map(plain)
        .flat_map(move |word| [word, word | random.next() & 0xf000_8000])
}

/// State and number of each field, and what the register's call says of the number.
fn states() -> Tally {
    let mut tally = Tally::new("x86_64 fields, states");
    for word in words() {
        let ours = ffi::parse_x86_64(word).five_fields();
        for (&(state, number), theirs) in ours.iter().zip(fields(word)) {
            let theirs = theirs.told();
            let ours = (state, number.into(), ffi::register_x86_64(number));
            tally.check(|| input(word), ours, (theirs.state, theirs.number, theirs));
        }
    }
    tally
}

/// Every 7 is told as unknown 7, and nothing else is told as unknown.
fn sevens() -> Tally {
    let mut tally = Tally::new("x86_64 fields, unknown ones");
    let (mut told, mut words_in_all) = (0, 0);
    for word in words() {
        let ours = ffi::parse_x86_64(word).five_fields();
        for (_, &field) in (0..).zip(&ours).filter(|(k, _)| word >> (3 * k) & 7 == 7) {
            tally.check(|| input(word), field, (UNKNOWN, 7));
        }
        told += ours.iter().filter(|(state, _)| *state == UNKNOWN).count();
        words_in_all += 1;
    }
    // A field is 7 in one of eight combinations.
    tally.check(|| "how many".into(), told, 5 * words_in_all / 8);
    tally
}

/// Registers, as many as the word counts, then absent ones.
fn lists() -> Tally {
    let mut tally = Tally::new("x86_64 lists, states");
    let all_of = |kind: u32| (kind << 24..).take(1 << 13);
    for word in all_of(2).chain(all_of(3)) {
        let ours = ffi::parse_x86_64(word);
        let count = if ours.answer == 5 { 0 } else { word >> 10 & 7 };
        let states = ours.popped_regs.map(|n| ffi::register_x86_64(n).state);
        let theirs = [0, 1, 2, 3, 4, 5].map(|place| if place < count { REGISTER } else { ABSENT });
        tally.check(|| input(word), states, theirs);
    }
    tally
}
