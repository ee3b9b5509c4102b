//! `permute_encode`, which the header gives as a comment.

use crate::ffi::{self, Permutation};
use crate::tally::Tally;

/// Our decoder undoes the header's encoder, and our encoder says the same as it.
pub fn compare() -> Tally {
    let mut tally = Tally::new("header, permute_encode");
    for count in 1..=6 {
        for list in lists(count) {
            let encoding = permute_encode(&list[..count]);
            let input = || format!("count {count}, list {list:?}");
            let ours = ffi::encode_permutation_6(count as u32, &list);
            tally.check(
                input,
                ours,
                ffi::Encoding {
                    refusal: 0,
                    encoding,
                },
            );
            let ours = ffi::decode_permutation_6(count as u32, encoding);
            tally.check(
                input,
                ours,
                Permutation {
                    refusal: 0,
                    registers: list,
                },
            );
        }
    }
    tally
}

/// Lists of distinct numbers 1 to 6, filled up with zeros.
fn lists(count: usize) -> Vec<[u8; 6]> {
    let mut lists = vec![[0; 6]];
    for place in 0..count {
        lists = lists.iter().flat_map(|list| longer(list, place)).collect();
    }
    lists
}

fn longer(list: &[u8; 6], place: usize) -> Vec<[u8; 6]> {
    let unused = (1..=6).filter(|register| !list.contains(register));
    let with = |register| {
        let mut list = *list;
        list[place] = register;
        list
    };
    unused.map(with).collect()
}

/// The header's list ends at place 5 where ours begins at place 0; the numbers are the same.
fn permute_encode(registers: &[u8]) -> u32 {
    let digit = |i: usize| {
        let less = registers[..i]
            .iter()
            .filter(|&&register| register < registers[i])
            .count();
        u32::from(registers[i]) - less as u32 - 1
    };
    let weights: &[u32] = match registers.len() {
        5 | 6 => &[120, 24, 6, 2, 1],
        4 => &[60, 12, 3, 1],
        3 => &[20, 4, 1],
        2 => &[5, 1],
        _ => &[1],
    };
    weights
        .iter()
        .enumerate()
        .map(|(i, weight)| weight * digit(i))
        .sum()
}
