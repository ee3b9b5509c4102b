//! Frames that a processor has run, and the callers that it came from.

pub mod groups;
pub mod read;

use super::machine::{Machine, ARM64, X86_64};
use crate::ffi::section::{lookup, FOUND};
use crate::sections::corpus::{self, Real};
use crate::tally::{Report, Tally};
use groups::Groups;
pub use read::{read, Executed, Told};
use std::io::Result;

pub fn compare(report: &mut Report) -> Result<()> {
    let Some(frames) = read()? else {
        corpus::skipped("frames, real");
        return Ok(());
    };
    let mut groups = Groups::new("frames, real");
    let mut looked_up = Tally::new("frames, real, words looked up");
    let sections = corpus::sections()?;
    on_machine(&mut groups, &X86_64, &frames.x86_64, report);
    on_machine(&mut groups, &ARM64, &frames.arm64, report);
    look_up(&mut looked_up, &frames.x86_64, &sections);
    look_up(&mut looked_up, &frames.arm64, &sections);
    println!(
        "{:<44} {:>10} skipped",
        "frames, real, of other machines", frames.skipped
    );
    report.add(looked_up);
    groups.end(report);
    Ok(())
}

fn on_machine<const N: usize>(
    groups: &mut Groups,
    machine: &Machine<N>,
    frames: &[Executed<N>],
    report: &mut Report,
) {
    let mut callers = groups.callers(machine);
    for frame in frames {
        groups.step(machine, frame, frame.case.ours(machine), &mut callers);
    }
    report.add(callers);
}

fn look_up<const N: usize>(tally: &mut Tally, frames: &[Executed<N>], sections: &[Real]) {
    for frame in frames {
        let section = sections.iter().find(|real| real.name == frame.section);
        let ours = section.map(|real| {
            let found = lookup(&real.bytes, frame.address);
            (found.outcome, found.opcode)
        });
        let input = || format!("{}, address {:#x}", frame.id, frame.address);
        tally.check(input, ours, Some((FOUND, frame.case.word)));
    }
}
