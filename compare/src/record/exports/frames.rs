//! A lookup and then a step: the named frames, their words put into S, and lookups that find none.

use super::calls::{self, Call};
use super::{agreed, u32s, u64s, Files};
use crate::ffi::unwind::Unwound;
use crate::frames::case::Case;
use crate::frames::machine::{numbers, Machine, ARM64, X86_64};
use crate::frames::named::{self, Named};
use crate::model::unwind::{unwind, unwound};
use crate::model::{self, Section};
use crate::record::witness::Witness;
use crate::sections::asked::Question;
use crate::sections::small::s;
use crate::sections::traps;
use std::io::Result;

/// Bytes of a window, at most.
const SHORT: usize = 4_096;

pub fn record(out: &mut Files) -> Result<()> {
    on_machine(out, &X86_64, &calls::UNWIND_X86_64, named::x86_64())?;
    on_machine(out, &ARM64, &calls::UNWIND_ARM64, named::arm64())
}

/// S's opcodes: where they stand, an address that has them, and the probes there.
const OPCODES: [(usize, u32, u32); 2] = [(28, 0x103f, 4), (76, 0x1040, 3)];

fn on_machine<const N: usize>(
    out: &mut Files,
    machine: &Machine<N>,
    call: &Call,
    all: Vec<Named<N>>,
) -> Result<()> {
    let short = all.iter().filter(|named| named.case.bytes.len() <= SHORT);
    for (number, named) in short.enumerate() {
        let (place, address, probes) = OPCODES[number % 2];
        let mut section = s();
        section[place..place + 4].copy_from_slice(&named.case.word.to_le_bytes());
        let expected = unwound(named.answer, probes);
        one(
            out,
            machine,
            call,
            (named.name, &section, address),
            &named.case,
            expected,
        )?;
    }
    // The first one would answer.
    lookups(out, machine, call, &all[0].case)
}

/// A lookup of each refusal, and two that find no function.
fn lookups<const N: usize>(
    out: &mut Files,
    machine: &Machine<N>,
    call: &Call,
    case: &Case<N>,
) -> Result<()> {
    for trap in traps::all() {
        for (question, [outcome, refusal, .., probes, _]) in trap.answers {
            let (Question::Lookup(address), 0 | 2) = (question, outcome) else {
                continue;
            };
            let refusal = if outcome == 0 { 20 } else { refusal };
            let is_first = trap.name == "S" && outcome == 0;
            if is_first || !out.has_met(call, refusal) {
                let expected = unwound(case.refused(refusal, 0), probes);
                one(
                    out,
                    machine,
                    call,
                    (trap.name, &trap.section, address),
                    case,
                    expected,
                )?;
            }
        }
    }
    Ok(())
}

/// The answer expected must be the model's, and the lookup the Rust's too. So must the word's rule,
/// which `words` sees to.
fn one<const N: usize>(
    out: &mut Files,
    machine: &Machine<N>,
    call: &Call,
    (name, section, address): (&str, &[u8], u32),
    case: &Case<N>,
    expected: Unwound<N>,
) -> Result<()> {
    Witness::new(name, section).answer(Question::Lookup(address))?;
    let found = model::lookup(&Section::parse(section), address);
    let told = unwind(found, machine.frame, case.registers, case.window());
    agreed(name, told, expected)?;
    let registers: Vec<u64> = numbers(&case.registers).collect();
    let numbers_in = u64s(&[&[case.base], &registers[..]].concat());
    let asked = [u32s(&[address]), numbers_in, case.bytes.clone()].concat();
    let first = [told.refusal, told.value, told.probes].map(u64::from);
    let answer = first.into_iter().chain(numbers(&told.registers));
    out.about(section);
    out.record(call, &asked, &[told.refusal], answer);
    Ok(())
}
