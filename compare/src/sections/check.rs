//! All questions on one section, put to both sides.

mod batches;
mod fills;
mod iteration;
mod lists;
mod lookups;
mod places;
mod sides;

use super::case::Case;
use super::opened::Opened;
use super::outside::{Outside, Reason};
use crate::ffi::section::{self as ours, RangeAnswer};
use crate::model;
use crate::oracle::section::BUILDS;
use crate::random::Random;
use crate::tally::{Report, Tally};
use batches::Batches;
use sides::Sides;

/// The groups of answers.
pub struct Checks {
    parse: Sides,
    range: Sides,
    lookup: Sides,
    places: Tally,
    batches: Batches,
    iteration: Sides,
    cursors: Tally,
    fill: Tally,
    lists: Tally,
    well_formed: Tally,
    outside: Outside,
}

impl Checks {
    pub fn new() -> Self {
        Checks {
            parse: Sides::new("parse"),
            range: Sides::new("address range"),
            lookup: Sides::new("lookup"),
            places: Tally::new("sections, next where a lookup found"),
            batches: Batches::new(),
            iteration: Sides::new("iteration"),
            cursors: Tally::new("sections, next from any cursor, model"),
            fill: Tally::new("sections, fill, model"),
            lists: Tally::new("sections, any two lists, model"),
            well_formed: Tally::new("sections, well formed, model"),
            outside: Outside::default(),
        }
    }

    pub fn end(self, report: &mut Report) {
        for sides in [self.parse, self.range, self.lookup, self.iteration] {
            sides.add_to(report);
        }
        report.add(self.places);
        self.batches.add_to(report);
        for tally in [self.cursors, self.fill, self.lists, self.well_formed] {
            report.add(tally);
        }
        self.outside.print();
    }

    /// All questions; says whether the model finds the section well formed. Where lists are
    /// granted that shouldn't be, nothing more is asked, since what would be read isn't there.
    pub fn section(&mut self, case: &Case) -> bool {
        let opened = Opened::new(case);
        let mut random = Random::new(case.number() as u64);
        if !self.parse(&opened) {
            return model::is_well_formed(&opened.model);
        }
        self.range(&opened);
        let looked_up = self.lookups(&opened, &mut random);
        let functions = self.iteration(&opened);
        self.cursors(&opened, &mut random);
        self.fills(&opened, functions, &mut random);
        self.lists(&opened, &mut random);
        self.batches.ask(&opened, &looked_up, &mut random);
        self.well_formed(&opened)
    }

    /// Says whether ours is the model's answer.
    fn parse(&mut self, opened: &Opened) -> bool {
        let input = || opened.case.asked("parse");
        let answer = ours::parse(opened.section);
        let model = model::parse(opened.section);
        for (number, build) in BUILDS.iter().enumerate() {
            self.parse.compared(
                &mut self.outside,
                (opened.case, &"parse"),
                number,
                Reason::of(number, true, model.refusal),
                (answer, (build.parse)(opened.section)),
            );
        }
        self.parse.model.check(input, answer, model)
    }

    fn range(&mut self, opened: &Opened) {
        let input = || opened.case.asked("address range");
        let answer = ours::address_range(opened.section);
        let model = model::address_range(&opened.model);
        self.range.model.check(input, answer, model);
        if opened.listed.is_ok() {
            let again = ours::address_range_in(opened.section, opened.lists);
            let model = model::address_range(&opened.listed);
            self.range.model.check(input, again, model);
        }
        for (build, view) in opened.views() {
            let (start, end) = view.address_range();
            let theirs = RangeAnswer {
                refusal: 0,
                start,
                end,
            };
            self.range.compared(
                &mut self.outside,
                (opened.case, &"address range"),
                build,
                Reason::of(build, true, model.refusal),
                (answer, theirs),
            );
        }
    }

    fn well_formed(&mut self, opened: &Opened) -> bool {
        let model = model::is_well_formed(&opened.model);
        self.well_formed.check(
            || opened.case.asked("well formed"),
            ours::is_well_formed(opened.section),
            model.into(),
        );
        model
    }
}
