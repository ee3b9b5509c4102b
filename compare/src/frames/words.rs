//! Words with a sound frame, and words that lack little of one.

use super::machine::Machine;
use crate::random::Random;
use crate::words::of_kind;

/// Of eight, five are sound, one is two bits off, and one has a kind that is named or the next.
pub fn any<const N: usize>(machine: &Machine<N>, random: &mut Random) -> u32 {
    match random.below(8) {
        0 => random.next(),
        1 => of_kind(random.next(), random.below(6)),
        2 => sound(machine, random) ^ 1 << random.below(28) ^ 1 << random.below(28),
        _ => sound(machine, random),
    }
}

pub fn sound<const N: usize>(machine: &Machine<N>, random: &mut Random) -> u32 {
    (machine.prologue)(random, machine.largest).word(random.next())
}
