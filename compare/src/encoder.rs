//! The encoder, which the Rust lacks: it must undo the Rust's decoder, and accept no other list.

use crate::ffi::{self, Encoding, LIST_REFUSED};
use crate::oracle::NEWEST;
use crate::random::Random;
use crate::tally::{Report, Tally};

const RANDOM_LISTS: usize = 1_000_000;

pub fn compare(report: &mut Report) {
    let expected = Expected::new();
    report.add(round_trip());
    report.add(all_lists(&expected));
    report.add(random_lists(&expected));
}

/// Counts 1 to 6 with the encodings of ten bits that the Rust accepts, and their lists.
pub fn accepted() -> Vec<(u32, u32, [u8; 6])> {
    let mut accepted = Vec::new();
    for count in 1..=6 {
        for encoding in 0..1024 {
            let answer = (NEWEST.decode_permutation_6)(count, encoding);
            if answer.refusal == 0 {
                accepted.push((count, encoding, answer.registers));
            }
        }
    }
    accepted
}

fn round_trip() -> Tally {
    let mut tally = Tally::new("encoder undoes the Rust's decoder");
    for (count, encoding, list) in accepted() {
        let ours = ffi::encode_permutation_6(count, &list);
        tally.check(
            || input(count, &list),
            ours,
            Encoding {
                refusal: 0,
                encoding,
            },
        );
    }
    tally
}

/// All lists of numbers 0 to 7.
fn all_lists(expected: &Expected) -> Tally {
    let mut tally = Tally::new("encoder on all lists of 0 to 7");
    for count in 0..8 {
        for index in 0..LISTS {
            check(&mut tally, expected, count, &list(index));
        }
    }
    tally
}

/// Lists of any bytes, and lists of small numbers with any count.
fn random_lists(expected: &Expected) -> Tally {
    let mut tally = Tally::new("encoder at random");
    let mut random = Random::new(2);
    for _ in 0..RANDOM_LISTS {
        check(&mut tally, expected, random.below(9), &random.bytes());
        check(
            &mut tally,
            expected,
            random.next(),
            &random.bytes().map(|byte| byte & 7),
        );
        check(
            &mut tally,
            expected,
            random.below(8),
            &one_large(&mut random),
        );
    }
    tally
}

/// A list of six distinct registers or zeros, but for one byte.
fn one_large(random: &mut Random) -> [u8; 6] {
    let mut list = [1, 2, 3, 4, 5, 6];
    random.shuffle(&mut list);
    list[random.below(7) as usize..].fill(0);
    list[random.below(6) as usize] = random.next() as u8;
    list
}

fn check(tally: &mut Tally, expected: &Expected, count: u32, list: &[u8; 6]) {
    tally.check(
        || input(count, list),
        ffi::encode_permutation_6(count, list),
        expected.answer(count, list),
    );
}

fn input(count: u32, list: &[u8; 6]) -> String {
    format!("count {count}, list {list:?}")
}

/// Lists of six numbers below 8.
const LISTS: usize = 8 * 8 * 8 * 8 * 8 * 8;

fn list(index: usize) -> [u8; 6] {
    std::array::from_fn(|place| (index >> (3 * place)) as u8 & 7)
}

/// The place of a list of numbers below 8.
fn index(list: &[u8; 6]) -> usize {
    list.iter()
        .rev()
        .fold(0, |index, &number| index << 3 | number as usize)
}

/// For each count up to 6 and each list, the encoding that the Rust decodes to it, if any.
pub struct Expected(Vec<Vec<Option<u32>>>);

impl Expected {
    pub fn new() -> Self {
        let mut rows = vec![vec![None; LISTS]; 7];
        // Every encoding of count 0 decodes to the zeros; the encoder gives them 0
        // (docs/FORMAT.md, 8.3).
        rows[0][0] = Some(0);
        for (count, encoding, list) in accepted() {
            let before = rows[count as usize][index(&list)].replace(encoding);
            assert_eq!(
                before, None,
                "the Rust decodes two encodings of count {count} to {list:?}"
            );
        }
        Expected(rows)
    }

    pub fn answer(&self, count: u32, list: &[u8; 6]) -> Encoding {
        let small = list.iter().all(|&number| number < 8);
        let row = self.0.get(count as usize).filter(|_| small);
        match row.and_then(|row| row[index(list)]) {
            Some(encoding) => Encoding {
                refusal: 0,
                encoding,
            },
            None => Encoding {
                refusal: LIST_REFUSED,
                encoding: 0,
            },
        }
    }
}
