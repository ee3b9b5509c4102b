//! A call, a prologue and any body are run; then the step must give the caller back.

use super::case::{returned, Case};
use super::machine::{random_registers, Machine};
use super::steps::random_bytes;
use crate::ffi::frame::{Registers, Window};
use crate::model::frame::prologue::{Prologue, Running};
use crate::random::Random;
use crate::tally::{Report, Tally};

const CALLS: usize = 300_000;
/// One call in so many may have the largest size, the others a small one.
const LARGE: u32 = 32;
const SMALL: u32 = 31;

pub fn compare<const N: usize>(machine: &Machine<N>, report: &mut Report) {
    let mut tally = Tally::new(format!("callers given back, {}", machine.name));
    let mut random = Random::new(24);
    for _ in 0..CALLS {
        let is_large = random.below(LARGE) == 0;
        let largest = if is_large { machine.largest } else { SMALL };
        let prologue = (machine.prologue)(&mut random, largest);
        let (case, caller) = called(&*prologue, &mut random);
        let ours = case.ours(machine);
        tally.check(|| case.to_string(), ours, returned(caller));
    }
    report.add(tally);
}

/// The state in the body, and the caller's after return.
pub fn called<const N: usize>(
    prologue: &dyn Prologue<N>,
    random: &mut Random,
) -> (Case<N>, Registers<N>) {
    let (before, after) = (random.below(40), random.below(40));
    let length = u64::from(before) + prologue.bytes() + u64::from(after);
    let base = base(random, length);
    let cfa = base + u64::from(before) + prologue.bytes();
    let bytes = random_bytes(random, length as usize);
    let mut registers = random_registers(random);
    registers.sp = cfa;
    let bytes = &bytes;
    let mut running = Running::new(registers, Window { base, bytes });
    let return_address = random.long();
    prologue.call(&mut running, return_address);
    let caller = Registers {
        pc: return_address,
        sp: cfa,
        saved: running.registers.saved,
    };
    prologue.run(&mut running);
    running.body(random);
    let case = Case {
        word: prologue.word(random.next()),
        registers: running.registers,
        base,
        bytes: running.bytes(),
    };
    (case, caller)
}

/// Where the window may begin: at 0, so that it ends at the highest address, or between.
fn base(random: &mut Random, length: u64) -> u64 {
    let highest = u64::MAX - length;
    match random.below(8) {
        0 => 0,
        1 => highest,
        _ => random.long().min(highest),
    }
}
