//! A lookup and then a step in one call: against the model of both, with the word also as the
//! Rust looks it up; on frames and stacks that a processor left, against what it had.

mod check;
mod found;
mod made;
mod named;
mod real;
mod walks;

use crate::frames::machine::{ARM64, X86_64};
use crate::oracle::section::silence_panics;
use crate::random::Random;
use crate::sections::case::Case;
use crate::sections::opened::Opened;
use crate::sections::{corpus, families, traps};
use crate::tally::Report;
use check::Checks;

pub fn compare(report: &mut Report) -> std::io::Result<()> {
    silence_panics();
    named::compare(report);
    let mut both = Both {
        x86_64: Checks::new(&X86_64),
        arm64: Checks::new(&ARM64),
    };
    both.all_sections()?;
    both.x86_64.made();
    both.arm64.made();
    both.x86_64.end(report);
    both.arm64.end(report);
    real::compare(report)?;
    walks::compare(report)
}

/// Both machines on the same sections.
struct Both {
    x86_64: Checks<6>,
    arm64: Checks<20>,
}

impl Both {
    /// Those that the sections are compared on.
    fn all_sections(&mut self) -> std::io::Result<()> {
        for (number, trap) in traps::all().iter().enumerate() {
            self.section(&Case::new(trap.name, number, &trap.section));
        }
        let real = corpus::sections()?;
        for family in families::all(&real) {
            for (number, section) in family.sections.enumerate() {
                self.section(&Case::new(family.name, number, &section));
            }
        }
        for (number, real) in real.iter().enumerate() {
            self.section(&Case::new(&real.name, number, &real.bytes));
        }
        Ok(())
    }

    fn section(&mut self, case: &Case) {
        let opened = Opened::new(case);
        let mut random = Random::new(case.number() as u64);
        found::for_each(&opened, &mut random, |found| {
            self.x86_64.address(&opened, found);
            self.arm64.address(&opened, found);
        });
    }
}
