//! Rules: words of every kind with every value of the low 16 bits, and words at random.

use super::machine::Machine;
use crate::model::frame::rule;
use crate::oracle::RELEASES;
use crate::random::Random;
use crate::tally::{Report, Tally};
use crate::words::of_kind;

/// Bits 16 to 23 with each low half: around what a frame-based or frameless word needs, and the
/// highest. One more value is drawn.
const HIGHS: [u32; 9] = [0, 1, 2, 3, 4, 5, 6, 7, 255];
const RANDOM_WORDS: u32 = 4_000_000;

pub fn compare<const N: usize>(machine: &Machine<N>, report: &mut Report) {
    let name = |side| format!("rules, {}, {side}", machine.name);
    let mut model = Tally::new(name("model"));
    let mut rust = RELEASES
        .each_ref()
        .map(|release| Tally::new(name(release.name)));
    for_each_word(|word| {
        let (input, ours) = (|| format!("word {word:#010x}"), (machine.rule)(word));
        model.check(input, ours, rule((machine.frame)(word)));
        for (tally, release) in rust.iter_mut().zip(&RELEASES) {
            if let Some(frame) = (machine.rust)(release, word) {
                tally.check(input, ours, rule(frame));
            }
        }
    });
    report.add(model);
    rust.into_iter().for_each(|tally| report.add(tally));
}

fn for_each_word(mut check: impl FnMut(u32)) {
    let mut random = Random::new(22);
    for kind in 0..16 {
        for low in 0..1 << 16 {
            let noise = random.next();
            for high in HIGHS.into_iter().chain([noise & 255]) {
                check(of_kind(noise & 0xf000_0000 | high << 16 | low, kind));
            }
        }
    }
    for _ in 0..RANDOM_WORDS {
        check(random.next());
    }
}
