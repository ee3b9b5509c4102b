//! Answers on real frames, grouped by what is known of the caller.

use super::{Executed, Told};
use crate::ffi::frame::Step;
use crate::frames::case::returned;
use crate::frames::machine::Machine;
use crate::tally::{Report, Tally};

/// Groups that both machines share.
pub struct Groups {
    name: &'static str,
    model: Tally,
    indirect: Tally,
    refused: Tally,
    /// Callers that come out only with d pairs from bits 8 to 11.
    d_pairs: Tally,
    /// arm64 frameless words with pair bits, which a rule ignores (docs/FORMAT.md, 0.4).
    ignored_pairs: Tally,
    differing: Tally,
}

impl Groups {
    pub fn new(name: &'static str) -> Self {
        let tally = |group| Tally::new(format!("{name}, {group}"));
        Groups {
            name,
            model: tally("model"),
            indirect: tally("indirect words refused"),
            refused: tally("refused as marked"),
            d_pairs: tally("callers with d pairs"),
            ignored_pairs: tally("frameless with pairs"),
            differing: tally("registers named as differing"),
        }
    }

    /// A machine's group of callers that must come out.
    pub fn callers<const N: usize>(&self, machine: &Machine<N>) -> Tally {
        Tally::new(format!("{}, callers, {}", self.name, machine.name))
    }

    pub fn end(self, report: &mut Report) {
        report.add(self.d_pairs);
        report.add(self.model);
        report.add(self.indirect);
        report.add(self.refused);
        report.add(self.differing);
        report.add_listed(self.ignored_pairs);
    }

    /// Our answer on a frame.
    pub fn step<const N: usize>(
        &mut self,
        machine: &Machine<N>,
        frame: &Executed<N>,
        ours: Step<N>,
        callers: &mut Tally,
    ) {
        let input = || format!("{}: {}", frame.id, frame.case);
        self.model.check(input, ours, frame.case.model(machine));
        match frame.told {
            Told::Caller(caller) => {
                let group = if frame.needs_d_pairs {
                    &mut self.d_pairs
                } else {
                    callers
                };
                group.check(input, ours, returned(caller))
            }
            Told::Indirect => self.indirect.check(input, ours, frame.case.refused(25, 0)),
            Told::Refused(refusal, value) => {
                let refused = frame.case.refused(refusal, value);
                self.refused.check(input, ours, refused)
            }
            Told::Differs(ref caller, ref named) => {
                let differing = (ours.refusal, machine.differing(&ours.registers, caller));
                let named = named.iter().map(String::as_str).collect();
                self.differing.check(input, differing.clone(), (0, named));
                let input = || format!("{}, word {:#010x}", frame.id, frame.case.word);
                self.ignored_pairs.check(input, differing, (0, vec![]))
            }
        };
    }
}
