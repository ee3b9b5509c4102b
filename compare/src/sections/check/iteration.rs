//! Iteration from the first cursor on, and steps from any cursor.

use super::Checks;
use crate::ffi::section::{self as ours, Cursor, NextAnswer, FOUND, NONE};
use crate::model;
use crate::oracle::section::{Functions, Told};
use crate::random::Random;
use crate::sections::opened::Opened;
use crate::sections::questions;

/// A build's iterator, and the build's place in `BUILDS`.
type Theirs<'a> = (usize, Box<dyn Functions + 'a>);

impl Checks {
    /// To the end and one step on; gives the functions met.
    pub(super) fn iteration(&mut self, opened: &Opened) -> usize {
        let mut rust: Vec<Theirs> = opened
            .views()
            .map(|(build, view)| (build, view.functions()))
            .collect();
        let (mut cursor, mut functions, mut ends) = ((0, 0), 0, 0);
        while ends < 2 {
            let answer = self.step(opened, &mut rust, cursor);
            functions += usize::from(answer.outcome == FOUND);
            ends += usize::from(answer.outcome == NONE || opened.model.is_err());
            cursor = (answer.page, answer.index);
        }
        functions
    }

    /// One step of all; gives the model's answer.
    fn step(&mut self, opened: &Opened, rust: &mut [Theirs], cursor: Cursor) -> NextAnswer {
        let question = format_args!("next {cursor:?}");
        let input = || opened.case.asked(question);
        let answer = ours::next(opened.section, cursor);
        let model = model::next(&opened.model, cursor);
        self.iteration.model.check(input, answer, model);
        if opened.listed.is_ok() {
            let again = ours::next_in(opened.section, opened.lists, cursor);
            let model = model::next(&opened.listed, cursor);
            self.iteration.model.check(input, again, model);
        }
        for (build, functions) in rust {
            let told = (Told::from(answer), functions.next());
            self.iteration.told(
                &mut self.outside,
                (opened.case, &question),
                *build,
                // Iteration searches nothing.
                (true, model.refusal.into()),
                told,
            );
        }
        model
    }

    pub(super) fn cursors(&mut self, opened: &Opened, random: &mut Random) {
        for cursor in questions::cursors(&opened.listed, random) {
            let input = || opened.case.asked(format_args!("next {cursor:?}"));
            let model = model::next(&opened.model, cursor);
            let answer = ours::next(opened.section, cursor);
            self.cursors.check(input, answer, model);
            if opened.listed.is_ok() {
                let answer = ours::next_in(opened.section, opened.lists, cursor);
                let model = model::next(&opened.listed, cursor);
                self.cursors.check(input, answer, model);
            }
        }
    }
}
