//! Sections whose words have frames, most of them sound.

use crate::frames::machine::Machine;
use crate::frames::words;
use crate::random::Random;
use crate::sections::plan::Layout;
use crate::sections::{damage, made};

const MADE: usize = 40_000;

/// Of four, two are well formed, one is wrong in what it says, and one in its bytes.
pub fn sections<const N: usize>(machine: &Machine<N>) -> impl Iterator<Item = Vec<u8>> + '_ {
    let mut random = Random::new(27);
    (0..MADE).map(move |i| {
        let mut plan = made::plan_of(&|random| words::any(machine, random), &mut random);
        if i % 4 == 2 {
            damage::plan(&mut random, &mut plan);
        }
        let mut written = plan.write(&mut Layout::Random(&mut random));
        if i % 4 == 3 {
            damage::bytes(&mut random, &mut written);
        }
        written.bytes
    })
}
