//! One machine's answers, beside the model's and those by the words that the Rust looks up.

use super::found::{self, Found};
use super::made;
use crate::ffi::section::{LookupAnswer, FOUND};
use crate::ffi::unwind::Unwound;
use crate::frames::case::Case as Frame;
use crate::frames::machine::Machine;
use crate::frames::{steps, words};
use crate::model::unwind::unwind;
use crate::oracle::section::BUILDS;
use crate::random::Random;
use crate::sections::case::Case;
use crate::sections::opened::Opened;
use crate::tally::{Report, Tally};
use std::collections::BTreeMap;

pub struct Checks<const N: usize> {
    machine: &'static Machine<N>,
    model: Tally,
    rust: [Tally; 3],
    outcomes: BTreeMap<u32, u64>,
    random: Random,
    /// Windows are parts of it.
    memory: Vec<u8>,
}

impl<const N: usize> Checks<N> {
    pub fn new(machine: &'static Machine<N>) -> Self {
        let tally = |side| Tally::new(format!("unwind, {}, {side}", machine.name));
        let mut random = Random::new(26);
        Checks {
            machine,
            model: tally("model"),
            rust: BUILDS.each_ref().map(|build| tally(build.name)),
            outcomes: BTreeMap::new(),
            memory: steps::memory(&mut random),
            random,
        }
    }

    pub fn end(self, report: &mut Report) {
        report.add(self.model);
        println!("    by refusal, 0 for none: {:?}", self.outcomes);
        self.rust.into_iter().for_each(|tally| report.add(tally));
    }

    /// Sections with words for this machine.
    pub fn made(&mut self) {
        for (number, section) in made::sections(self.machine).enumerate() {
            let case = Case::new("made with sound words", number, &section);
            let opened = Opened::new(&case);
            let mut random = Random::new(number as u64);
            found::for_each(&opened, &mut random, |found| self.address(&opened, found));
        }
    }

    /// With any registers, and a window near the frame of the word found, or of any word.
    pub fn address(&mut self, opened: &Opened, found: &Found) {
        let word = match found.model.outcome {
            FOUND => found.model.opcode,
            _ => words::any(self.machine, &mut self.random),
        };
        let frame = steps::case(self.machine, word, &self.memory, &mut self.random);
        self.check(opened, found, &frame);
    }

    fn check(&mut self, opened: &Opened, found: &Found, frame: &Frame<N>) {
        let address = found.address;
        let input = || {
            let question = format_args!("unwind {address:#x} with {frame}");
            opened.case.asked(question)
        };
        let ours = frame.unwind(self.machine, opened.section, address);
        let model = self.expected(found.model, frame);
        *self.outcomes.entry(model.refusal).or_insert(0) += 1;
        self.model.check(input, ours, model);
        for (build, theirs) in found.rust.into_iter().enumerate() {
            let Some(theirs) = theirs else { continue };
            let told = if theirs == found.model {
                model
            } else {
                self.expected(theirs, frame)
            };
            self.rust[build].check(input, ours, told);
        }
    }

    /// The model's step after a lookup's answer.
    fn expected(&self, found: LookupAnswer, frame: &Frame<N>) -> Unwound<N> {
        unwind(found, self.machine.frame, frame.registers, frame.window())
    }
}
