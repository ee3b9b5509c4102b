//! Answers of the Rust, for a replay that needs no Rust.
//!
//! A record is eight little-endian numbers of 32 bits: tag, two inputs, and the five of the
//! answer: case, two values, and six register numbers as bytes in two numbers.

mod chosen;
pub mod exports;
pub mod frames;
mod inputs;
pub mod listings;
pub mod sections;
mod witness;

use crate::ffi::Permutation;
use crate::oracle::told::WordX86_64;
use crate::oracle::{NEWEST, RELEASES};
use std::fmt::Debug;

const PERMUTATION: u32 = 1;
const X86_64: u32 = 2;
const ARM64: u32 = 3;
/// Added to the tag of a record with a wrong answer.
const CONTROL: u32 = 100;
const CONTROLS: usize = 8;
/// Where the five numbers of the answer begin.
const ANSWER: usize = 3;

type Record = [u32; 8];

pub fn write(file: &str) -> std::io::Result<()> {
    let groups = [permutations(), x86_64_words(), arm64_words()];
    let controls: Vec<Record> = groups.iter().flat_map(|group| controls(group)).collect();
    let records = [&groups[..], &[controls]].concat().concat();
    let bytes: Vec<u8> = records
        .iter()
        .flatten()
        .flat_map(|n| n.to_le_bytes())
        .collect();
    std::fs::write(file, bytes)?;
    println!("{} records written to {file}", records.len());
    Ok(())
}

fn permutations() -> Vec<Record> {
    let record = |(count, encoding)| {
        let Permutation { refusal, registers } =
            same(|release| (release.decode_permutation_6)(count, encoding));
        let [low, high] = packed(registers);
        [PERMUTATION, count, encoding, refusal, 0, 0, low, high]
    };
    inputs::permutations().into_iter().map(record).collect()
}

fn x86_64_words() -> Vec<Record> {
    let record = |word| {
        let opcode = same(|release| (release.parse_x86_64)(word));
        let [low, high] = packed(registers(&opcode));
        [
            X86_64,
            word,
            0,
            opcode.answer.into(),
            opcode.value,
            opcode.stack_adjust_in_bytes.into(),
            low,
            high,
        ]
    };
    inputs::x86_64_words().into_iter().map(record).collect()
}

fn arm64_words() -> Vec<Record> {
    let record = |word| {
        let opcode = same(|release| (release.parse_arm64)(word));
        [
            ARM64,
            word,
            0,
            opcode.answer.into(),
            // One of these is 0, since they belong to different cases.
            opcode.value | u32::from(opcode.saved_reg_pair_count),
            opcode.saved_pairs.into(),
            0,
            0,
        ]
    };
    inputs::arm64_words().into_iter().map(record).collect()
}

/// A frame-based word's fields, field 0 first, or a frameless word's list; 0 for `None`.
fn registers(word: &WordX86_64) -> [u8; 6] {
    let mut registers = word.popped_regs;
    for (place, field) in registers.iter_mut().zip(word.fields) {
        *place = place.or(field);
    }
    registers.map(Option::unwrap_or_default)
}

/// The first four registers, then the last two, lowest byte first.
fn packed(r: [u8; 6]) -> [u32; 2] {
    [
        u32::from_le_bytes([r[0], r[1], r[2], r[3]]),
        u32::from_le_bytes([r[4], r[5], 0, 0]),
    ]
}

/// The newest release's answer, which the others must share.
fn same<A: PartialEq + Debug>(ask: impl Fn(&crate::oracle::Release) -> A) -> A {
    let answer = ask(NEWEST);
    for release in &RELEASES {
        assert_eq!(
            ask(release),
            answer,
            "release {} answers otherwise",
            release.name
        );
    }
    answer
}

/// Records spread over the group, in each of which one number of the answer is wrong.
fn controls(group: &[Record]) -> Vec<Record> {
    let control = |i: usize| {
        let mut record = group[i * group.len() / CONTROLS + i];
        record[0] += CONTROL;
        record[ANSWER + i % 5] ^= 1;
        record
    };
    (0..CONTROLS).map(control).collect()
}
