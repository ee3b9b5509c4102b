//! What all say of a section: the model, and the Rust where the question is on the domain.

use crate::ffi::section::{Cursor, FOUND};
use crate::model::{self, Refusal, Section};
use crate::oracle::section::{Told, View, BUILDS};
use crate::sections::asked::{self, zeros_after, Answer, Question};
use crate::sections::keys::Keys;
use std::collections::BTreeMap;
use std::io::{Error, Result};

pub struct Witness<'a> {
    name: &'a str,
    section: &'a [u8],
    model: std::result::Result<Section<'a>, Refusal>,
    rust: [Option<Box<dyn View<'a> + 'a>>; 3],
    /// What each build says where its iteration comes by.
    steps: BTreeMap<Cursor, [Option<Told>; 3]>,
}

impl<'a> Witness<'a> {
    pub fn new(name: &'a str, section: &'a [u8]) -> Self {
        let model = Section::parse(section);
        let rust = BUILDS.each_ref().map(|build| (build.open)(section));
        let mut functions = rust
            .each_ref()
            .map(|view| view.as_ref().map(|view| view.functions()));
        let (mut steps, mut cursor) = (BTreeMap::new(), (0, 0));
        while !steps.contains_key(&cursor) {
            let told = functions.each_mut().map(|all| Some(all.as_mut()?.next()));
            steps.insert(cursor, told);
            let next = model::next(&model, cursor);
            cursor = (next.page, next.index);
        }
        Witness {
            name,
            section,
            model,
            rust,
            steps,
        }
    }

    /// The cursors of the iteration, in its order.
    pub fn cursors(&self) -> Vec<Cursor> {
        self.steps.keys().copied().collect()
    }

    pub fn model(&self) -> &std::result::Result<Section<'a>, Refusal> {
        &self.model
    }

    /// The model's answer, and how many builds of the Rust gave the same, none another.
    pub fn answer(&self, question: Question) -> Result<(Answer, usize)> {
        let answer = question.model(self.section);
        let mut same = 0;
        for (build, theirs) in self.told(question).into_iter().enumerate() {
            match theirs.filter(|_| self.on_domain(question, &answer, build)) {
                None => {}
                Some(theirs) if theirs == known(question, answer) => same += 1,
                Some(theirs) => {
                    return Err(Error::other(format!(
                        "{question:?} of {}: {} says {theirs:x?}, the model {answer:x?}",
                        self.name, BUILDS[build].name
                    )))
                }
            }
        }
        Ok((answer, same))
    }

    /// Each build's answer, as far as it goes.
    fn told(&self, question: Question) -> [Option<Answer>; 3] {
        let views = self.rust.each_ref();
        match question {
            Question::Parse => BUILDS
                .each_ref()
                .map(|build| Some(asked::parse((build.parse)(self.section)))),
            Question::Range => views.map(|view| {
                let (start, end) = view.as_ref()?.address_range();
                Some(zeros_after([FOUND.into(), 0, start, end]))
            }),
            Question::Lookup(address) => {
                views.map(|view| Some(numbers(view.as_ref()?.lookup(address))))
            }
            Question::Next(cursor) => match self.steps.get(&cursor) {
                Some(told) => told.map(|told| told.map(numbers)),
                None => [None; 3],
            },
            Question::WellFormed => [None; 3],
        }
    }

    fn on_domain(&self, question: Question, answer: &Answer, build: usize) -> bool {
        let keys_rise = match question {
            Question::Lookup(address) => Keys::new(&self.model).rise(&self.model, address),
            _ => true,
        };
        let is_panic = matches!(question, Question::Lookup(_) | Question::Next(_))
            && matches!(answer[1], 13 | 14);
        // The Rust doesn't look at the version.
        let is_read = self.model.as_ref().err() != Some(&15);
        is_read && keys_rise && (BUILDS[build].checks_sums || !is_panic)
    }
}

/// What the Rust can know of an answer: neither where a function came from, nor probes nor cursors.
fn known(question: Question, answer: Answer) -> Answer {
    let [outcome, refusal, start, end, opcode, ..] = answer;
    match question {
        Question::Lookup(_) | Question::Next(_) => {
            zeros_after([outcome, refusal, start, end, opcode])
        }
        _ => answer,
    }
}

fn numbers(told: Told) -> Answer {
    let (outcome, refusal) = (told.outcome.into(), told.refusal.into());
    zeros_after([outcome, refusal, told.start, told.end, told.opcode])
}
