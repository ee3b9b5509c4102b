//! Rules and steps of both machines: against the model, the Rust's decoding, prologues that are
//! run, and frames that a processor has run.

pub mod case;
pub mod json;
pub mod machine;
pub mod named;
pub mod real;
pub mod returns;
mod rules;
mod rust;
pub mod steps;
pub mod words;

use crate::tally::Report;
use machine::{Machine, ARM64, X86_64};

pub fn compare(report: &mut Report) -> std::io::Result<()> {
    on_machine(&X86_64, report);
    on_machine(&ARM64, report);
    named::compare(report);
    real::compare(report)
}

fn on_machine<const N: usize>(machine: &Machine<N>, report: &mut Report) {
    rules::compare(machine, report);
    steps::compare(machine, report);
    returns::compare(machine, report);
}
