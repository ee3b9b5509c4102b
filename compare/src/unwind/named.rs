//! Cases with a name, their answers written out: of steps, with their words put into S, and of
//! lookups that find no function.

use crate::ffi::unwind::Unwound;
use crate::frames::case::Case;
use crate::frames::machine::{Machine, ARM64, X86_64};
use crate::frames::named::{self, Named};
use crate::model::unwind::{unwind, unwound};
use crate::model::{self, Section};
use crate::sections::asked::Question;
use crate::sections::small::s;
use crate::sections::traps;
use crate::tally::{Report, Tally};

pub fn compare(report: &mut Report) {
    let mut tallies = Tallies {
        ours: Tally::new("unwind, named cases"),
        model: Tally::new("unwind, named cases, of the model"),
    };
    on_machine(&X86_64, named::x86_64(), &mut tallies);
    on_machine(&ARM64, named::arm64(), &mut tallies);
    report.add(tallies.ours);
    report.add(tallies.model);
}

fn on_machine<const N: usize>(machine: &Machine<N>, all: Vec<Named<N>>, tallies: &mut Tallies) {
    for named in &all {
        words(machine, named, tallies);
    }
    // The first one would answer.
    lookups(machine, &all[0].case, tallies);
}

/// S's opcodes: where they stand, the addresses that have them, and the probes there.
const OPCODES: [(usize, [u32; 2], u32); 2] = [(28, [0x1000, 0x103f], 4), (76, [0x1040, 0x10ff], 3)];

/// The word in place of each opcode of S.
fn words<const N: usize>(machine: &Machine<N>, named: &Named<N>, tallies: &mut Tallies) {
    for (place, addresses, probes) in OPCODES {
        let mut section = s();
        section[place..place + 4].copy_from_slice(&named.case.word.to_le_bytes());
        for address in addresses {
            let expected = unwound(named.answer, probes);
            let asked = (named.name, &section[..], address);
            tallies.check(machine, asked, &named.case, expected);
        }
    }
}

/// What the named sections refuse or have no function for.
fn lookups<const N: usize>(machine: &Machine<N>, case: &Case<N>, tallies: &mut Tallies) {
    for trap in traps::all() {
        for (question, [outcome, refusal, .., probes, _]) in trap.answers {
            let (Question::Lookup(address), 0 | 2) = (question, outcome) else {
                continue;
            };
            let refusal = if outcome == 0 { 20 } else { refusal };
            let expected = unwound(case.refused(refusal, 0), probes);
            let asked = (trap.name, &trap.section[..], address);
            tallies.check(machine, asked, case, expected);
        }
    }
}

struct Tallies {
    ours: Tally,
    model: Tally,
}

impl Tallies {
    fn check<const N: usize>(
        &mut self,
        machine: &Machine<N>,
        (name, section, address): (&str, &[u8], u32),
        case: &Case<N>,
        expected: Unwound<N>,
    ) {
        let input = || format!("{name}, {}, address {address:#x}: {case}", machine.name);
        let found = model::lookup(&Section::parse(section), address);
        let model = unwind(found, machine.frame, case.registers, case.window());
        self.model.check(input, model, expected);
        let ours = case.unwind(machine, section, address);
        self.ours.check(input, ours, expected);
    }
}
