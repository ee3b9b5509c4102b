//! The two machines: what is asked of ours, and what holds it to account.

use super::rust;
use crate::ffi::frame::{self as ours, Registers, Rule, Step, Window};
use crate::ffi::unwind::{unwind_arm64, unwind_x86_64, Unwound};
use crate::model::frame::prologue::{self, Prologue};
use crate::model::frame::{self as model, Frame, Refused};
use crate::oracle::Release;
use crate::random::Random;

pub struct Machine<const N: usize> {
    pub name: &'static str,
    /// Of the program counter and the stack pointer.
    pub first_names: [&'static str; 2],
    pub saved_names: [&'static str; N],
    pub rule: fn(u32) -> Rule<N>,
    pub step: fn(u32, Registers<N>, Window) -> Step<N>,
    /// Takes a section and an address first.
    pub unwind: fn(&[u8], u32, Registers<N>, Window) -> Unwound<N>,
    /// What the model reads from a word.
    pub frame: fn(u32) -> Result<Frame<N>, Refused>,
    /// The same with the Rust's decoding; none where that loses or misreads what decides.
    pub rust: fn(&Release, u32) -> Option<Result<Frame<N>, Refused>>,
    /// Any sound word's prologue; the number bounds its size.
    pub prologue: fn(&mut Random, u32) -> Box<dyn Prologue<N>>,
    /// The highest size in a word.
    pub largest: u32,
}

pub static X86_64: Machine<6> = Machine {
    name: "x86_64",
    first_names: ["rip", "rsp"],
    saved_names: ["rbx", "r12", "r13", "r14", "r15", "rbp"],
    rule: ours::rule_x86_64,
    step: ours::step_x86_64,
    unwind: unwind_x86_64,
    frame: model::x86_64::frame,
    rust: rust::x86_64,
    prologue: prologue::x86_64::any,
    largest: 255,
};

pub static ARM64: Machine<20> = Machine {
    name: "arm64",
    first_names: ["pc", "sp"],
    saved_names: [
        "x19", "x20", "x21", "x22", "x23", "x24", "x25", "x26", "x27", "x28", "x29", "x30", "d8",
        "d9", "d10", "d11", "d12", "d13", "d14", "d15",
    ],
    rule: ours::rule_arm64,
    step: ours::step_arm64,
    unwind: unwind_arm64,
    frame: model::arm64::frame,
    rust: rust::arm64,
    prologue: prologue::arm64::any,
    largest: 4095,
};

impl<const N: usize> Machine<N> {
    /// The names of registers that differ, sorted.
    pub fn differing(&self, one: &Registers<N>, other: &Registers<N>) -> Vec<&'static str> {
        let pairs = numbers(one).zip(numbers(other));
        let names = self.first_names.iter().chain(&self.saved_names);
        let differing = names.zip(pairs).filter(|(_, (a, b))| a != b);
        let mut differing: Vec<_> = differing.map(|(name, _)| *name).collect();
        differing.sort();
        differing
    }
}

/// All registers, the first two before the others.
pub fn numbers<const N: usize>(registers: &Registers<N>) -> impl Iterator<Item = u64> + '_ {
    let first = [registers.pc, registers.sp];
    first.into_iter().chain(registers.saved)
}

pub fn random_registers<const N: usize>(random: &mut Random) -> Registers<N> {
    Registers {
        pc: random.long(),
        sp: random.long(),
        saved: std::array::from_fn(|_| random.long()),
    }
}
