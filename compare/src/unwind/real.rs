//! Real frames from a real address on: looked up in their section, then stepped out of.

use crate::ffi::frame::Step;
use crate::frames::machine::{Machine, ARM64, X86_64};
use crate::frames::real::groups::Groups;
use crate::frames::real::{read, Executed};
use crate::model;
use crate::sections::corpus::{self, Real};
use crate::tally::{Report, Tally};
use std::io::Result;

pub fn compare(report: &mut Report) -> Result<()> {
    let Some(frames) = read()? else {
        corpus::skipped("unwind, real");
        return Ok(());
    };
    let mut all = All {
        sections: corpus::sections()?,
        groups: Groups::new("unwind, real"),
        probes: Tally::new("unwind, real, probes, model"),
    };
    all.on_machine(&X86_64, &frames.x86_64, report);
    all.on_machine(&ARM64, &frames.arm64, report);
    report.add(all.probes);
    all.groups.end(report);
    Ok(())
}

struct All {
    sections: Vec<Real>,
    groups: Groups,
    probes: Tally,
}

impl All {
    fn on_machine<const N: usize>(
        &mut self,
        machine: &Machine<N>,
        frames: &[Executed<N>],
        report: &mut Report,
    ) {
        let mut callers = self.groups.callers(machine);
        for frame in frames {
            let section = corpus::find(&self.sections, &frame.section);
            let ours = frame.case.unwind(machine, section, frame.address);
            let found = model::lookup(&model::Section::parse(section), frame.address);
            let input = || format!("{}, address {:#x}", frame.id, frame.address);
            self.probes.check(input, ours.probes, found.probes.into());
            let stepped = Step {
                refusal: ours.refusal,
                value: ours.value,
                registers: ours.registers,
            };
            self.groups.step(machine, frame, stepped, &mut callers);
        }
        report.add(callers);
    }
}
