//! `decode_permutation_6` on all small inputs, around the powers of two and at random.

use crate::ffi;
use crate::oracle::RELEASES;
use crate::random::Random;
use crate::tally::{Report, Tally};

const RANDOM_PAIRS: usize = 100_000;

pub fn compare(report: &mut Report) {
    for (name, pairs) in [
        ("small", small()),
        ("powers of two", powers()),
        ("random", random()),
    ] {
        for release in &RELEASES {
            let mut tally = Tally::new(format!("permutations {name}, {}", release.name));
            for &(count, encoding) in &pairs {
                tally.check(
                    || format!("count {count}, encoding {encoding}"),
                    ffi::decode_permutation_6(count, encoding),
                    (release.decode_permutation_6)(count, encoding),
                );
            }
            report.add(tally);
        }
    }
}

/// Every count of three bits with every encoding of ten bits.
fn small() -> Vec<(u32, u32)> {
    (0..8)
        .flat_map(|count| (0..1024).map(move |encoding| (count, encoding)))
        .collect()
}

fn powers() -> Vec<(u32, u32)> {
    let edges = edges();
    edges
        .iter()
        .flat_map(|&count| edges.iter().map(move |&encoding| (count, encoding)))
        .collect()
}

/// Each power of two with its neighbours, up to 2^32 − 1, in rising order.
pub fn edges() -> Vec<u32> {
    let near = (0..=32).flat_map(|bit| [-1, 0, 1].map(|by| (1i64 << bit) + by));
    let mut edges: Vec<u32> = near.filter_map(|n| n.try_into().ok()).collect();
    edges.sort();
    edges.dedup();
    edges
}

/// Any two numbers, and any encoding with a count of three bits.
fn random() -> Vec<(u32, u32)> {
    let mut random = Random::new(1);
    let mut pairs = Vec::new();
    for _ in 0..RANDOM_PAIRS {
        pairs.push((random.next(), random.next()));
        pairs.push((random.below(8), random.next()));
    }
    pairs
}
