//! Stacks that a processor left, from the first address to the last: each caller is looked up
//! and stepped out of in its turn.

mod read;

use crate::ffi::frame::Registers;
use crate::frames::case::Case;
use crate::frames::machine::{Machine, ARM64, X86_64};
use crate::model::unwind::unwind;
use crate::model::{self, Section};
use crate::sections::corpus::{self, Real};
use crate::tally::{Report, Tally};
use read::{read, Walk};
use std::io::Result;

pub fn compare(report: &mut Report) -> Result<()> {
    let Some(walks) = read()? else {
        corpus::skipped("unwind, stacks");
        return Ok(());
    };
    let mut stacks = Stacks {
        sections: corpus::sections()?,
        callers: Tally::new("unwind, stacks, callers and ends"),
        reached: Tally::new("unwind, stacks, registers reached"),
        model: Tally::new("unwind, stacks, model"),
    };
    for walk in &walks.x86_64 {
        stacks.walk(&X86_64, walk);
    }
    for walk in &walks.arm64 {
        stacks.walk(&ARM64, walk);
    }
    report.add(stacks.callers);
    report.add(stacks.reached);
    report.add(stacks.model);
    Ok(())
}

struct Stacks {
    sections: Vec<Real>,
    callers: Tally,
    reached: Tally,
    model: Tally,
}

impl Stacks {
    fn walk<const N: usize>(&mut self, machine: &Machine<N>, walk: &Walk<N>) {
        let mut case = walk.case.clone();
        for (frame, expected) in walk.expected().into_iter().enumerate() {
            let Some(address) = walk.address(frame) else {
                break;
            };
            let input = || format!("{}, frame {frame}, address {address:#x}", walk.id);
            let (refusal, caller) = self.unwind(machine, walk, &case, address);
            let told = (refusal, caller.pc);
            if !self.callers.check(input, told, expected) {
                return;
            }
            case.registers = caller;
        }
        if walk.ends_whole() {
            self.reached
                .check(|| walk.id.clone(), case.registers, walk.reached);
        }
    }

    /// Our refusal and registers, which must be the model's too.
    fn unwind<const N: usize>(
        &mut self,
        machine: &Machine<N>,
        walk: &Walk<N>,
        case: &Case<N>,
        address: u32,
    ) -> (u32, Registers<N>) {
        let section = corpus::find(&self.sections, &walk.section);
        let ours = case.unwind(machine, section, address);
        let found = model::lookup(&Section::parse(section), address);
        let model = unwind(found, machine.frame, case.registers, case.window());
        let input = || format!("{}, address {address:#x}", walk.id);
        self.model.check(input, ours, model);
        (ours.refusal, ours.registers)
    }
}
