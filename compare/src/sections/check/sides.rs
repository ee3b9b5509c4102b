//! One question's answers, beside the model's and beside each build's of the Rust.

use crate::oracle::section::{Told, BUILDS};
use crate::sections::case::Case;
use crate::sections::outside::{Outside, Reason};
use crate::tally::{Report, Tally};
use std::fmt::{Debug, Display};

pub struct Sides {
    name: &'static str,
    pub model: Tally,
    pub rust: [Tally; 3],
}

impl Sides {
    pub fn new(name: &'static str) -> Self {
        let tally = |side| Tally::new(format!("sections, {name}, {side}"));
        Sides {
            name,
            model: tally("model"),
            rust: BUILDS.each_ref().map(|build| tally(build.name)),
        }
    }

    pub fn add_to(self, report: &mut Report) {
        report.add(self.model);
        self.rust.into_iter().for_each(|tally| report.add(tally));
    }

    /// One answer beside a build's: compared on the domain, and counted outside of it.
    /// `refusal` is the model's, never the Rust's.
    pub fn told(
        &mut self,
        outside: &mut Outside,
        (case, question): (&Case, &dyn Display),
        build: usize,
        (keys_rise, refusal): (bool, u32),
        (ours, theirs): (Told, Told),
    ) {
        let reason = Reason::of(build, keys_rise, refusal);
        let theirs = match (reason, refusal) {
            (Some(reason), _) => reason.seen(theirs),
            // The build that checks sums panics exactly where ours refuses with 13 and 14.
            (None, 13 | 14) => theirs.with_panic_as_refusal(),
            (None, _) => theirs,
        };
        self.compared(outside, (case, question), build, reason, (ours, theirs));
    }

    /// The same of any answer, by the reason for which it lies outside of the domain.
    pub fn compared<A: PartialEq + Debug>(
        &mut self,
        outside: &mut Outside,
        (case, question): (&Case, &dyn Display),
        build: usize,
        reason: Option<Reason>,
        (ours, theirs): (A, A),
    ) {
        match reason {
            Some(reason) => {
                let group = (reason, self.name, BUILDS[build].name);
                outside.count(group, (case, question), (ours, theirs));
            }
            None => {
                self.rust[build].check(|| case.asked(question), ours, theirs);
            }
        }
    }
}
