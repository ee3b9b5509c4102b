//! Steps at random, many of them at the edges of the window and of the addresses.

use super::case::Case;
use super::machine::{random_registers, Machine};
use super::words;
use crate::model::frame::HIGHEST;
use crate::random::Random;
use crate::tally::{Report, Tally};
use std::collections::BTreeMap;

const STEPS: usize = 1_500_000;
/// Bytes of a window, at most.
const LONGEST: i128 = 2_200;

pub fn compare<const N: usize>(machine: &Machine<N>, report: &mut Report) {
    let mut tally = Tally::new(format!("steps, {}, model", machine.name));
    let mut outcomes = BTreeMap::new();
    for case in cases(machine).take(STEPS) {
        let model = case.model(machine);
        *outcomes.entry(model.refusal).or_insert(0) += 1;
        tally.check(|| case.to_string(), case.ours(machine), model);
    }
    report.add(tally);
    println!("    steps by refusal, 0 for none: {outcomes:?}");
}

/// Cases for ever.
pub fn cases<const N: usize>(machine: &Machine<N>) -> impl Iterator<Item = Case<N>> + '_ {
    let mut random = Random::new(23);
    let memory = memory(&mut random);
    (0..).map(move |_| {
        let word = words::any(machine, &mut random);
        case(machine, word, &memory, &mut random)
    })
}

/// Bytes that windows are parts of.
pub fn memory(random: &mut Random) -> Vec<u8> {
    random_bytes(random, 2 * LONGEST as usize)
}

/// Any registers, and a window near the frame that the word has with them.
pub fn case<const N: usize>(
    machine: &Machine<N>,
    word: u32,
    memory: &[u8],
    random: &mut Random,
) -> Case<N> {
    let mut registers = random_registers(random);
    let frame = (machine.frame)(word).ok();
    let (distance, depth) = frame.as_ref().map_or((16, 16), |f| (f.distance, f.depth()));
    let anchor = anchor(random, distance, depth);
    match frame.and_then(|frame| frame.anchor) {
        Some(register) => registers.saved[register] = anchor,
        None => registers.sp = anchor,
    }
    let cfa = i128::from(anchor) + distance;
    let (base, length) = window(random, cfa - depth, cfa);
    let start = random.below(LONGEST as u32) as usize;
    Case {
        word,
        registers,
        base,
        bytes: memory[start..start + length].to_vec(),
    }
}

/// Anywhere, or so that CFA or the lowest slot comes near an end of the addresses.
fn anchor(random: &mut Random, distance: i128, depth: i128) -> u64 {
    let near = i128::from(random.below(24)) - 12;
    let place = match random.below(8) {
        0 => HIGHEST - distance + near,
        1 => depth - distance + near,
        2 => random.below(4096).into(),
        3 => HIGHEST - i128::from(random.below(64)),
        4 => random.long().into(),
        _ => 0x7ff0_0000_0000 + i128::from(random.next()),
    };
    place.clamp(0, HIGHEST) as u64
}

/// Base and length of a window from near one place to near another.
fn window(random: &mut Random, from: i128, to: i128) -> (u64, usize) {
    let (from, to) = match random.below(16) {
        0 => (from, from),
        1 => (HIGHEST - i128::from(random.below(40)), HIGHEST + 1),
        2 => (0, to),
        _ => (from - nudge(random), to + nudge(random)),
    };
    let base = from.clamp(0, HIGHEST);
    let length = (to - base).clamp(0, LONGEST);
    (base as u64, length as usize)
}

/// Bytes that a window goes beyond the frame, or falls short of it.
fn nudge(random: &mut Random) -> i128 {
    match random.below(16) {
        0 => -1,
        1 => 1,
        2 => -i128::from(random.below(12)),
        3..=6 => random.below(40).into(),
        _ => 0,
    }
}

pub fn random_bytes(random: &mut Random, length: usize) -> Vec<u8> {
    let fours = (0..length.div_ceil(4)).flat_map(|_| random.next().to_le_bytes());
    let mut bytes: Vec<u8> = fours.collect();
    bytes.truncate(length);
    bytes
}
