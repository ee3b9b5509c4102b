//! Steps, for a replay that needs no processor.
//!
//! Little-endian numbers of 64 bits. A record is tag, opcode, base, the window's length in bytes,
//! the registers given; refusal, value and the registers that must come back; the window's bytes,
//! filled up with zeros to whole numbers. A lone tag 0 ends the file.
//!
//! The callers of real frames are the processor's, recorded when the function was entered. The
//! answers of named cases are written out beside them. Other refusals are the model's, and all
//! answers must be the model's too.

mod chosen;

use crate::ffi::frame::Step;
use crate::frames::case::Case;
use crate::frames::machine::{numbers, Machine, ARM64, X86_64};
use crate::frames::{named, real};
use chosen::Recorded;
use std::io::{Error, Result};

/// Tags, with what is added to the tag of a record with a wrong answer.
const END: u64 = 0;
const ON_X86_64: u64 = 1;
const ON_ARM64: u64 = 2;
const CONTROL: u64 = 100;
/// Bytes that the file may have: the replay's buffer.
const ROOM: usize = 131_072;

/// How many real frames of each kind are recorded, at most.
const REAL_X86_64: [(u32, usize); 4] = [(1, 60), (2, 84), (3, 8), (4, 2)];
const REAL_ARM64: [(u32, usize); 3] = [(2, 20), (3, 3), (4, 48)];

#[derive(Default)]
struct File {
    bytes: Vec<u8>,
    controls: usize,
}

pub fn write(file: &str) -> Result<()> {
    let frames = real::read()?.ok_or_else(|| Error::other("there are no real frames"))?;
    let mut out = File::default();
    let named = out.named(ON_X86_64, &X86_64, named::x86_64())?
        + out.named(ON_ARM64, &ARM64, named::arm64())?;
    let drawn = out.all(ON_X86_64, &X86_64, chosen::refused(&X86_64))?
        + out.all(ON_ARM64, &ARM64, chosen::refused(&ARM64))?;
    let x86_64 = chosen::real(&frames.x86_64, &REAL_X86_64);
    let arm64 = chosen::real(&frames.arm64, &REAL_ARM64);
    let real = out.all(ON_X86_64, &X86_64, x86_64)? + out.all(ON_ARM64, &ARM64, arm64)?;
    out.numbers([END]);
    let (length, controls) = (out.bytes.len(), out.controls);
    if length > ROOM {
        return Err(Error::other(format!("{length} bytes are too many")));
    }
    std::fs::write(file, &out.bytes)?;
    println!(
        "{length} bytes written to {file}: {named} named records, {drawn} refused ones of the \
         model, {real} of real frames, {controls} controls"
    );
    Ok(())
}

impl File {
    /// Named cases with short windows. The first has a caller and the last is refused: both get
    /// their controls.
    fn named<const N: usize>(
        &mut self,
        tag: u64,
        machine: &Machine<N>,
        all: Vec<named::Named<N>>,
    ) -> Result<usize> {
        let all: Vec<Recorded<N>> = all
            .into_iter()
            .map(|named| (named.case, named.answer))
            .filter(chosen::is_short)
            .collect();
        for (case, answer) in [&all[0], &all[all.len() - 1]] {
            self.controls(tag, case, answer);
        }
        self.all(tag, machine, all)
    }

    /// The model must give the same answers. Says how many there are.
    fn all<const N: usize>(
        &mut self,
        tag: u64,
        machine: &Machine<N>,
        all: Vec<Recorded<N>>,
    ) -> Result<usize> {
        for (case, answer) in &all {
            if case.model(machine) != *answer {
                return Err(Error::other(format!("{case}: the model says otherwise")));
            }
            self.record(tag, case, &flat(answer));
        }
        Ok(all.len())
    }

    /// The record once for each number of its answer, with that number changed.
    fn controls<const N: usize>(&mut self, tag: u64, case: &Case<N>, answer: &Step<N>) {
        let answer = flat(answer);
        for number in 0..answer.len() {
            let mut wrong = answer.clone();
            wrong[number] ^= 1;
            self.record(tag + CONTROL, case, &wrong);
            self.controls += 1;
        }
    }

    fn record<const N: usize>(&mut self, tag: u64, case: &Case<N>, answer: &[u64]) {
        self.numbers([tag, case.word.into(), case.base, case.bytes.len() as u64]);
        self.numbers(numbers(&case.registers));
        self.numbers(answer.iter().copied());
        self.bytes.extend_from_slice(&case.bytes);
        self.bytes.resize(self.bytes.len().next_multiple_of(8), 0);
    }

    fn numbers(&mut self, numbers: impl IntoIterator<Item = u64>) {
        let bytes = numbers.into_iter().flat_map(u64::to_le_bytes);
        self.bytes.extend(bytes);
    }
}

/// Refusal, value and registers.
fn flat<const N: usize>(answer: &Step<N>) -> Vec<u64> {
    let first = [answer.refusal, answer.value].map(u64::from);
    first
        .into_iter()
        .chain(numbers(&answer.registers))
        .collect()
}
