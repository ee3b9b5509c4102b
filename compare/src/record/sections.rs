//! Answers on sections, for a replay that needs no Rust.
//!
//! Little-endian numbers of 32 bits, thirteen for a record: tag, two inputs, and the ten of the
//! answer. A section's own record has its length as the first input and only zeros after that;
//! its bytes follow, filled up with zeros to whole numbers, and then the records about it.

use super::chosen::{self, Chosen};
use super::witness::Witness;
use crate::oracle::section::silence_panics;
use crate::sections::asked::{Answer, Question};
use std::collections::BTreeSet;
use std::io::{Error, Result};

const SECTION: u32 = 0;
/// Added to the tag of a record with a wrong answer.
const CONTROL: u32 = 100;
/// Bytes of a record.
const RECORD: usize = 4 * 13;
/// Bytes that the file may have; the replay takes 65,536.
const ROOM: usize = 60_000;

#[derive(Default)]
struct File {
    bytes: Vec<u8>,
    sections: usize,
    records: usize,
    controls: usize,
    /// Records whose answer a build of the Rust gave too.
    witnessed: usize,
    /// Tags with outcomes that have had their controls.
    controlled: BTreeSet<(u32, u32)>,
}

pub fn write(file: &str) -> Result<()> {
    silence_panics();
    let mut out = File::default();
    out.section(&chosen::s()?)?;
    for chosen in chosen::named()? {
        out.section(&chosen)?;
    }
    for chosen in chosen::real()? {
        out.section(&chosen)?;
    }
    for chosen in chosen::damaged() {
        if out.bytes.len() + size(&chosen) > ROOM {
            break;
        }
        out.section(&chosen)?;
    }
    if out.bytes.len() > ROOM {
        return Err(Error::other(format!(
            "{} bytes are too many",
            out.bytes.len()
        )));
    }
    std::fs::write(file, &out.bytes)?;
    println!(
        "{} bytes written to {file}: {} sections, {} records ({} of them also the Rust's), {} controls",
        out.bytes.len(),
        out.sections,
        out.records,
        out.witnessed,
        out.controls
    );
    Ok(())
}

fn size(chosen: &Chosen) -> usize {
    RECORD + chosen.section.len().next_multiple_of(4) + RECORD * chosen.questions.len()
}

impl File {
    fn section(&mut self, chosen: &Chosen) -> Result<()> {
        self.sections += 1;
        self.record([SECTION, chosen.section.len() as u32, 0], Answer::default());
        self.bytes.extend_from_slice(&chosen.section);
        self.bytes.resize(self.bytes.len().next_multiple_of(4), 0);
        let witness = Witness::new(&chosen.name, &chosen.section);
        for &question in &chosen.questions {
            let (answer, same) = witness.answer(question)?;
            self.records += 1;
            self.witnessed += usize::from(same > 0);
            let asked = asked(question);
            self.record(asked, answer);
            if self.controlled.insert((asked[0], answer[0])) {
                self.controls(asked, answer);
            }
        }
        Ok(())
    }

    /// The record once for each number of its answer, with that number changed.
    fn controls(&mut self, [tag, in1, in2]: [u32; 3], answer: Answer) {
        for number in 0..answer.len() {
            let mut wrong = answer;
            wrong[number] ^= 1;
            self.record([tag + CONTROL, in1, in2], wrong);
            self.controls += 1;
        }
    }

    fn record(&mut self, asked: [u32; 3], answer: Answer) {
        for number in asked.into_iter().chain(answer) {
            self.bytes.extend_from_slice(&number.to_le_bytes());
        }
    }
}

/// Tag and inputs.
fn asked(question: Question) -> [u32; 3] {
    match question {
        Question::Lookup(address) => [1, address, 0],
        Question::Next((page, index)) => [2, page, index],
        Question::Parse => [3, 0, 0],
        Question::Range => [4, 0, 0],
        Question::WellFormed => [5, 0, 0],
    }
}
