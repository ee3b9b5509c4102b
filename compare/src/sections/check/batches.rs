//! Lookups of many addresses in one call: each answer, and what lies after them.

use super::lookups::LookedUp;
use crate::ffi::section::LookupAnswer;
use crate::ffi::unwind::lookup_batch;
use crate::model::batched;
use crate::random::Random;
use crate::sections::made::pick;
use crate::sections::opened::Opened;
use crate::tally::{Report, Tally};
use std::collections::BTreeSet;

/// Batches of a section, besides the one of all its addresses.
const DRAWN: usize = 3;
/// Addresses of most batches, at most, and of one in `LONG_ONES`.
const SHORT: u32 = 40;
const LONG: u32 = 1_000;
const LONG_ONES: u32 = 32;
/// Numbers of an answer.
const ANSWER: usize = 6;
/// Numbers after the room, which must stay too.
const AFTER: usize = 8;

pub struct Batches {
    single: Tally,
    model: Tally,
    written: Tally,
    /// Those up to `SHORT` that were met, and the longest of all.
    lengths: BTreeSet<usize>,
    longest: usize,
}

impl Batches {
    pub fn new() -> Self {
        Batches {
            single: Tally::new("sections, batch, single lookup"),
            model: Tally::new("sections, batch, model"),
            written: Tally::new("sections, batch, how many and what stays"),
            lengths: BTreeSet::new(),
            longest: 0,
        }
    }

    pub fn add_to(self, report: &mut Report) {
        report.add(self.single);
        report.add(self.model);
        report.add(self.written);
        println!(
            "    {} of the lengths 0 to {SHORT}, the longest {}",
            self.lengths.len(),
            self.longest
        );
    }

    /// All addresses of a section with room for them, a long list also in another order; then
    /// drawn ones with any room.
    pub fn ask(&mut self, opened: &Opened, all: &[LookedUp], random: &mut Random) {
        self.batch(opened, all, ANSWER * all.len());
        if all.len() > LONG as usize {
            let mut shuffled = all.to_vec();
            random.shuffle(&mut shuffled);
            self.batch(opened, &shuffled, ANSWER * all.len());
        }
        for _ in 0..DRAWN {
            let length = length(random);
            let drawn: Vec<_> = (0..length).map(|_| *pick(random, all)).collect();
            self.batch(opened, &drawn, room(random, ANSWER * drawn.len()));
        }
    }

    fn batch(&mut self, opened: &Opened, asked: &[LookedUp], room: usize) {
        let length = asked.len();
        self.met(length);
        let input = || {
            let question = format_args!("batch of {length} with {room} numbers");
            opened.case.asked(question)
        };
        let before: Vec<u32> = (0..(room + AFTER) as u32).map(|i| !i).collect();
        let mut list = before.clone();
        let addresses: Vec<u32> = asked.iter().map(|one| one.address).collect();
        let count = lookup_batch(opened.section, &addresses, &mut list[..room]);
        let answered = length.min(room / ANSWER);
        let (answers, rest) = list.split_at(ANSWER * answered);
        let changed = (0..)
            .zip(rest)
            .find(|&(i, n)| *n != before[ANSWER * answered + i]);
        self.written
            .check(input, (count, changed), (answered, None));
        for (one, numbers) in asked.iter().zip(answers.chunks_exact(ANSWER)) {
            let input = || format!("{:#x} in {}", one.address, input());
            self.single.check(input, numbers, &bytes(one.ours));
            self.model.check(input, numbers, &batched(one.model));
        }
    }

    fn met(&mut self, length: usize) {
        if length <= SHORT as usize {
            self.lengths.insert(length);
        }
        self.longest = self.longest.max(length);
    }
}

fn length(random: &mut Random) -> u32 {
    let longest = match random.below(LONG_ONES) {
        0 => LONG,
        _ => SHORT,
    };
    random.below(longest + 1)
}

/// Numbers of room: as many as are answered, a few more or less, or any fewer.
fn room(random: &mut Random, numbers: usize) -> usize {
    let few = random.below(10) as usize;
    match random.below(4) {
        0 => numbers,
        1 => numbers + few,
        2 => numbers.saturating_sub(few),
        _ => random.below(numbers as u32 + 1) as usize,
    }
}

/// The 24 bytes of an answer as six numbers.
fn bytes(answer: LookupAnswer) -> [u32; ANSWER] {
    unsafe { std::mem::transmute(answer) }
}
