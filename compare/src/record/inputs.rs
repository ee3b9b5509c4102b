//! The inputs that are recorded.

use crate::oracle::read_alike_arm64;
use crate::permutations::edges;
use crate::random::Random;
use crate::words::of_kind;
use std::collections::BTreeSet;

const LARGE_PERMUTATIONS: usize = 64;
const X86_64_WORDS: usize = 4000;
const ARM64_WORDS: usize = 2000;

/// The words of section S (docs/FORMAT.md, 2.8).
const WORKED: [u32; 2] = [0x0203_0800, 0x0101_0001];

/// The first refused encoding of each count; counts 0 and 7 have none, or refuse all.
const BOUNDS: [u32; 8] = [720, 6, 30, 120, 360, 720, 720, 720];

/// Every count of three bits up to past the largest bound, then large ones.
pub fn permutations() -> Vec<(u32, u32)> {
    let small = (0..8).flat_map(|count| (0..=720).map(move |encoding| (count, encoding)));
    small.chain(large_permutations()).collect()
}

/// Large encodings with counts that may be accepted, and large counts with any encoding.
fn large_permutations() -> Vec<(u32, u32)> {
    let mut random = Random::new(6);
    let large: Vec<u32> = edges().into_iter().filter(|&n| n > 1022).collect();
    let mut pick = || {
        let large = large[random.below(large.len() as u32) as usize];
        let other = random.next();
        match random.below(4) {
            0 => (large, other),
            1 => (large, other % 720),
            _ => (other % 7, large),
        }
    };
    (0..LARGE_PERMUTATIONS).map(|_| pick()).collect()
}

pub fn x86_64_words() -> Vec<u32> {
    let mut random = Random::new(7);
    let mut words = Words::new(&WORKED);
    for word in frameless_bounds(&mut random) {
        words.add(word);
    }
    words.fill(X86_64_WORDS, || match random.below(8) {
        0 => random.next(),
        1 | 2 => of_kind(random.next(), 1),
        3 => of_kind(random.next(), 4),
        n => accepted_frameless(&mut random, 2 + n % 2),
    })
}

/// Both frameless kinds with each count, at the ends and around the bound of its permutations.
fn frameless_bounds(random: &mut Random) -> Vec<u32> {
    let mut words = Vec::new();
    for kind in [2, 3] {
        for (count, bound) in (0..).zip(BOUNDS) {
            for permutation in [0, 1, bound - 1, bound, bound + 1, 1022, 1023] {
                words.push(of_kind(random.next(), kind) & !0x1fff | count << 10 | permutation);
            }
        }
    }
    words
}

/// A frameless word whose permutation is accepted.
fn accepted_frameless(random: &mut Random, kind: u32) -> u32 {
    let count = random.below(7);
    let permutation = random.below(BOUNDS[count as usize]);
    of_kind(random.next(), kind) & !0x1fff | count << 10 | permutation
}

/// Words that the Rust is asked about.
pub fn arm64_words() -> Vec<u32> {
    let mut random = Random::new(8);
    let mut words = Words::new(&[]);
    // Each x pair alone, none and all, with no other bit and with all others but 5 to 11.
    for pairs in (0..5).map(|bit| 1 << bit).chain([0, 0x1f]) {
        words.add(0x0400_0000 | pairs);
        words.add(0xf4ff_f000 | pairs);
    }
    let mut draw = || match random.below(8) {
        0 => random.next(),
        1 => of_kind(random.next(), 3),
        2 | 3 => of_kind(random.next(), 2),
        _ => of_kind(random.next(), 4),
    };
    words.fill(ARM64_WORDS, || read_alike_arm64(draw()))
}

/// Words to record, none twice.
struct Words {
    list: Vec<u32>,
    known: BTreeSet<u32>,
}

impl Words {
    fn new(first: &[u32]) -> Self {
        Words {
            list: first.to_vec(),
            known: first.iter().copied().collect(),
        }
    }

    fn add(&mut self, word: u32) {
        if self.known.insert(word) {
            self.list.push(word);
        }
    }

    fn fill(mut self, length: usize, mut draw: impl FnMut() -> u32) -> Vec<u32> {
        while self.list.len() < length {
            self.add(draw());
        }
        self.list
    }
}
