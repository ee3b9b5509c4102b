//! Cases with a name, their answers written out.

mod arm64;
mod rules;
mod x86_64;

use super::case::{returned, Case};
use super::machine::{Machine, ARM64, X86_64};
use crate::ffi::frame::{Registers, Step};
use crate::tally::{Report, Tally};

pub struct Named<const N: usize> {
    pub name: &'static str,
    pub case: Case<N>,
    pub answer: Step<N>,
}

pub fn compare(report: &mut Report) {
    let mut ours = Tally::new("steps, named cases");
    let mut model = Tally::new("steps, named cases, the model's answers");
    on_machine(&X86_64, x86_64(), &mut ours, &mut model);
    on_machine(&ARM64, arm64(), &mut ours, &mut model);
    report.add(ours);
    report.add(model);
    rules::compare(report);
}

pub fn x86_64() -> Vec<Named<6>> {
    x86_64::all()
}

pub fn arm64() -> Vec<Named<20>> {
    arm64::all()
}

fn on_machine<const N: usize>(
    machine: &Machine<N>,
    all: Vec<Named<N>>,
    ours: &mut Tally,
    model: &mut Tally,
) {
    for named in all {
        let input = || format!("{}: {}", named.name, named.case);
        ours.check(input, named.case.ours(machine), named.answer);
        model.check(input, named.case.model(machine), named.answer);
    }
}

/// A case with its slots from `base` on.
fn case<const N: usize>(word: u32, registers: Registers<N>, base: u64, slots: &[u64]) -> Case<N> {
    Case {
        word,
        registers,
        base,
        bytes: slots.iter().flat_map(|slot| slot.to_le_bytes()).collect(),
    }
}

/// The case with a byte less at the window's start.
fn without_first<const N: usize>(mut case: Case<N>) -> Case<N> {
    case.base += 1;
    case.bytes.remove(0);
    case
}

/// The case with a byte less at the window's end.
fn without_last<const N: usize>(mut case: Case<N>) -> Case<N> {
    case.bytes.pop();
    case
}

fn gives<const N: usize>(name: &'static str, case: Case<N>, caller: Registers<N>) -> Named<N> {
    Named {
        name,
        case,
        answer: returned(caller),
    }
}

fn refuses<const N: usize>(
    name: &'static str,
    case: Case<N>,
    (refusal, value): (u32, u32),
) -> Named<N> {
    Named {
        name,
        answer: case.refused(refusal, value),
        case,
    }
}
