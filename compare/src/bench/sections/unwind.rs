//! The combined call. The Rust has no step: beside it stands its lookup, in a section that it
//! has parsed before, with the decoding of the word found.

mod words;

use super::made::Measured;
use super::{differ, parsed};
use crate::bench::stack::Stack;
use crate::bench::table::Table;
use crate::ffi::section as ours;
use crate::ffi::unwind::{unwind_arm64, unwind_x86_64};
use crate::frames::machine::{Machine, ARM64, X86_64};
use crate::model::unwind::unwind;
use crate::oracle::release_0_5_0::macho::opcodes::{OpcodeArm64, OpcodeX86_64};
use std::io::Result;

pub fn measure_all(table: &Table, all: &[Measured]) -> Result<()> {
    for measured in words::sections(&X86_64, all) {
        measure_x86_64(table, &measured)?;
    }
    for measured in words::sections(&ARM64, all) {
        measure_arm64(table, &measured)?;
    }
    Ok(())
}

fn measure_x86_64(table: &Table, measured: &Measured) -> Result<()> {
    let (section, stack) = (&measured.bytes[..], Stack::new());
    table.row(
        &format!("unwind x86_64, {}", measured.name),
        &addresses(&X86_64, measured, &stack)?,
        |address| unwind_x86_64(section, address, stack.registers, stack.window()),
        || {
            let info = parsed(section);
            move |address| {
                let function = info.lookup(address).ok()??;
                Some(OpcodeX86_64::parse(function.opcode))
            }
        },
    );
    Ok(())
}

fn measure_arm64(table: &Table, measured: &Measured) -> Result<()> {
    let (section, stack) = (&measured.bytes[..], Stack::new());
    table.row(
        &format!("unwind arm64, {}", measured.name),
        &addresses(&ARM64, measured, &stack)?,
        |address| unwind_arm64(section, address, stack.registers, stack.window()),
        || {
            let info = parsed(section);
            move |address| {
                let function = info.lookup(address).ok()??;
                Some(OpcodeArm64::parse(function.opcode))
            }
        },
    );
    Ok(())
}

/// Those whose word is sound; ours steps out of the frame of each.
fn addresses<const N: usize>(
    machine: &Machine<N>,
    measured: &Measured,
    stack: &Stack<N>,
) -> Result<Vec<u32>> {
    let section = &measured.bytes[..];
    let mut addresses = Vec::new();
    for &address in &measured.addresses {
        let found = ours::lookup(section, address);
        if (machine.frame)(found.opcode).is_err() {
            continue;
        }
        let answer = (machine.unwind)(section, address, stack.registers, stack.window());
        let model = unwind(found, machine.frame, stack.registers, stack.window());
        if answer.refusal != 0 || answer != model {
            let said = format!("the answer at {address:#x} is wrong");
            return Err(differ(measured, said));
        }
        addresses.push(address);
    }
    Ok(addresses)
}
