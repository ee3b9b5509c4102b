//! Answers of the exports that no other replay calls, or not for all that they tell, as a program's
//! input and output.
//!
//! The input has the place of the first record, the sections' bytes, and then the records: a tag,
//! the section's place and length, the number of bytes that the call takes, all little-endian
//! numbers of 32 bits, the call's name in 20 bytes, and those bytes. A line of the output is the
//! call's name and the numbers of its answer in hexadecimal, a struct's in the header's order,
//! after them those of a list that was lent to write.
//!
//! All answers are the model's or the Rust's, and where both answer, they must say the same. Ours
//! are not asked.

mod calls;
mod frames;
mod lent;
mod sections;
mod words;

use crate::oracle::section::silence_panics;
use calls::Call;
use std::collections::BTreeMap;
use std::fmt::{Debug, Write};
use std::io::{Error, Result};
use std::path::Path;

/// Bytes that a call's name takes, the rest of them blanks.
const NAME: usize = 20;
/// Bytes that the input may have.
const ROOM: usize = 65_536;

#[derive(Default)]
struct Files {
    sections: Vec<u8>,
    records: Vec<u8>,
    output: String,
    /// The last section written, and its place in the input.
    section: Vec<u8>,
    place: u32,
    /// How often each case of each call was met.
    met: BTreeMap<(u32, u32), usize>,
}

pub fn write(folder: &str) -> Result<()> {
    silence_panics();
    let mut out = Files::default();
    words::record(&mut out)?;
    sections::record(&mut out)?;
    frames::record(&mut out)?;
    out.is_complete()?;
    let folder = Path::new(folder);
    let input = out.input();
    std::fs::write(folder.join("stdin"), &input)?;
    std::fs::write(folder.join("stdout"), &out.output)?;
    println!(
        "{} bytes of input and {} lines of output written to {}",
        input.len(),
        out.output.lines().count(),
        folder.display()
    );
    Ok(())
}

impl Files {
    fn input(&self) -> Vec<u8> {
        let first = 4 + self.sections.len() as u32;
        [&u32s(&[first]), &self.sections, &self.records]
            .map(Vec::as_slice)
            .concat()
    }

    /// The section that the records from here on are about.
    fn about(&mut self, section: &[u8]) {
        if self.section != section {
            self.place = 4 + self.sections.len() as u32;
            self.sections.extend_from_slice(section);
            self.section = section.to_vec();
        }
    }

    /// What a call takes, the cases that its answer is of, and the answer's numbers.
    fn record(
        &mut self,
        call: &Call,
        asked: &[u8],
        cases: &[u32],
        numbers: impl IntoIterator<Item = u64>,
    ) {
        let section = [self.place, self.section.len() as u32];
        self.records.extend(u32s(&[
            call.tag,
            section[0],
            section[1],
            asked.len() as u32,
        ]));
        let name = format!("{:NAME$}", call.name);
        self.records.extend_from_slice(name.as_bytes());
        self.records.extend_from_slice(asked);
        self.output += &name;
        for number in numbers {
            write!(self.output, " {number:x}").expect("a String takes all");
        }
        self.output.push('\n');
        for &case in cases {
            *self.met.entry((call.tag, case)).or_insert(0) += 1;
        }
    }

    fn has_met(&self, call: &Call, case: u32) -> bool {
        self.met.contains_key(&(call.tag, case))
    }

    /// Each call must have been met in each of its cases.
    fn is_complete(&self) -> Result<()> {
        for call in calls::ALL {
            for &case in call.cases {
                if !self.has_met(call, case) {
                    let missing = format!("{}: case {case} is missing", call.name);
                    return Err(Error::other(missing));
                }
            }
        }
        let bytes = self.input().len();
        if bytes > ROOM {
            return Err(Error::other(format!("{bytes} bytes")));
        }
        Ok(())
    }
}

/// One of two answers that must be the same.
fn agreed<A: PartialEq + Debug>(what: &str, one: A, other: A) -> Result<A> {
    if one == other {
        return Ok(one);
    }
    Err(Error::other(format!("{what}: {one:x?} and {other:x?}")))
}

fn u32s(numbers: &[u32]) -> Vec<u8> {
    numbers.iter().flat_map(|n| n.to_le_bytes()).collect()
}

fn u64s(numbers: &[u64]) -> Vec<u8> {
    numbers.iter().flat_map(|n| n.to_le_bytes()).collect()
}
