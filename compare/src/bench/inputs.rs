//! The inputs that are measured: so many that a processor doesn't learn their branches.

use crate::encoder;
use crate::random::Random;
use crate::words::of_kind;

/// Inputs of a row, at least.
pub const INPUTS: usize = 32_768;

/// Every accepted permutation of counts 1 to 6, shuffled, again and again.
pub fn accepted() -> Vec<(u32, u32)> {
    let mut random = Random::new(9);
    let mut pairs: Vec<_> = encoder::accepted()
        .iter()
        .map(|&(count, encoding, _)| (count, encoding))
        .collect();
    let mut inputs = Vec::new();
    while inputs.len() < INPUTS {
        random.shuffle(&mut pairs);
        inputs.extend_from_slice(&pairs);
    }
    inputs
}

/// Any count of three bits with any encoding of ten bits, many of them refused.
pub fn random_pairs() -> Vec<(u32, u32)> {
    let mut random = Random::new(10);
    (0..INPUTS)
        .map(|_| (random.below(8), random.below(1024)))
        .collect()
}

/// Kinds 0 to 4 in equal shares: all that x86_64 has, and arm64's with one unrecognised.
pub fn mixed_words() -> Vec<u32> {
    let mut random = Random::new(11);
    (0..INPUTS)
        .map(|_| of_kind(random.next(), random.below(5)))
        .collect()
}

pub fn words_of_kind(kind: u32) -> Vec<u32> {
    let mut random = Random::new(12);
    (0..INPUTS).map(|_| of_kind(random.next(), kind)).collect()
}

/// Frameless immediate words with every accepted permutation, shuffled.
pub fn frameless_words() -> Vec<u32> {
    let mut random = Random::new(13);
    let word =
        |(count, permutation)| of_kind(random.next(), 2) & !0x1fff | count << 10 | permutation;
    accepted().into_iter().map(word).collect()
}
