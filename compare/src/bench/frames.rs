//! Rules and steps. The Rust has neither: its time is that of decoding the same word, which is
//! the first part of ours.

use super::inputs::INPUTS;
use super::stack::Stack;
use super::table::Table;
use crate::ffi::frame::{rule_arm64, rule_x86_64, step_arm64, step_x86_64};
use crate::frames::machine::{Machine, ARM64, X86_64};
use crate::model::frame::prologue::{arm64, x86_64, Prologue};
use crate::oracle::release_0_5_0::macho::opcodes::{OpcodeArm64, OpcodeX86_64};
use crate::random::Random;
use std::io::{Error, Result};

pub fn measure_all(table: &Table) -> Result<()> {
    measure_x86_64(table, "frame-based", x86_64::frame_based)?;
    measure_x86_64(table, "frameless immediate", x86_64::immediate)?;
    measure_x86_64(table, "mixed", x86_64::any)?;
    measure_arm64(table, "frame-based", arm64::frame_based)?;
    measure_arm64(table, "frameless", arm64::frameless)?;
    measure_arm64(table, "mixed", arm64::any)
}

type Draw<const N: usize> = fn(&mut Random, u32) -> Box<dyn Prologue<N>>;

fn measure_x86_64(table: &Table, kind: &str, draw: Draw<6>) -> Result<()> {
    let stack = Stack::new();
    let words = words(&X86_64, draw, &stack)?;
    table.row(
        &format!("x86_64 step / decoding, {kind}"),
        &words,
        |word| step_x86_64(word, stack.registers, stack.window()),
        || OpcodeX86_64::parse,
    );
    let name = format!("x86_64 rule / decoding, {kind}");
    table.row(&name, &words, rule_x86_64, || OpcodeX86_64::parse);
    Ok(())
}

fn measure_arm64(table: &Table, kind: &str, draw: Draw<20>) -> Result<()> {
    let stack = Stack::new();
    let words = words(&ARM64, draw, &stack)?;
    table.row(
        &format!("arm64 step / decoding, {kind}"),
        &words,
        |word| step_arm64(word, stack.registers, stack.window()),
        || OpcodeArm64::parse,
    );
    let name = format!("arm64 rule / decoding, {kind}");
    table.row(&name, &words, rule_arm64, || OpcodeArm64::parse);
    Ok(())
}

/// Sound words of any size; ours steps out of the frame of each.
fn words<const N: usize>(
    machine: &Machine<N>,
    draw: Draw<N>,
    stack: &Stack<N>,
) -> Result<Vec<u32>> {
    let mut random = Random::new(25);
    let mut word = || {
        let word = draw(&mut random, machine.largest).word(random.next());
        if stack.steps(machine, word) {
            Ok(word)
        } else {
            Err(Error::other(format!(
                "word {word:#010x}: the step is wrong"
            )))
        }
    };
    (0..INPUTS).map(|_| word()).collect()
}
