//! The part of the C interface about frames. `N` counts the machine's preserved registers: 6 on
//! x86_64, rbx, r12 to r15 and rbp; 20 on arm64, x19 to x30 and d8 to d15.

use std::fmt::{Debug, Formatter, Result};

#[repr(C)]
#[derive(Clone, Copy, PartialEq, Eq)]
pub struct Registers<const N: usize> {
    pub pc: u64,
    pub sp: u64,
    pub saved: [u64; N],
}

/// `refusal`: 0, or its number; `value`: the 24 bits of 21, the kind of 22. `cfa_register`: 0 the
/// stack pointer, 1 the frame pointer. `below`: each register's distance below CFA, 0 where the
/// word doesn't list it. A refusal leaves the last three 0.
#[repr(C)]
#[derive(Clone, Copy, Debug, PartialEq, Eq)]
pub struct Rule<const N: usize> {
    pub refusal: u32,
    pub value: u32,
    pub cfa_distance: u64,
    pub cfa_register: u32,
    pub below: [u16; N],
}

/// `refusal` and `value` as in a rule. A refusal hands the registers back unchanged.
#[repr(C)]
#[derive(Clone, Copy, Debug, PartialEq, Eq)]
pub struct Step<const N: usize> {
    pub refusal: u32,
    pub value: u32,
    pub registers: Registers<N>,
}

/// Bytes of the stack; `base` is the first one's address.
#[derive(Clone, Copy)]
pub struct Window<'a> {
    pub base: u64,
    pub bytes: &'a [u8],
}

extern "C" {
    fn brasspurse_rule_x86_64(opcode: u32) -> Rule<6>;
    fn brasspurse_rule_arm64(opcode: u32) -> Rule<20>;
    fn brasspurse_step_x86_64(
        opcode: u32,
        registers: Registers<6>,
        base: u64,
        window: *const u8,
        length: usize,
    ) -> Step<6>;
    fn brasspurse_step_arm64(
        opcode: u32,
        registers: Registers<20>,
        base: u64,
        window: *const u8,
        length: usize,
    ) -> Step<20>;
}

pub fn rule_x86_64(opcode: u32) -> Rule<6> {
    unsafe { brasspurse_rule_x86_64(opcode) }
}

pub fn rule_arm64(opcode: u32) -> Rule<20> {
    unsafe { brasspurse_rule_arm64(opcode) }
}

pub fn step_x86_64(opcode: u32, registers: Registers<6>, window: Window) -> Step<6> {
    let Window { base, bytes } = window;
    unsafe { brasspurse_step_x86_64(opcode, registers, base, bytes.as_ptr(), bytes.len()) }
}

pub fn step_arm64(opcode: u32, registers: Registers<20>, window: Window) -> Step<20> {
    let Window { base, bytes } = window;
    unsafe { brasspurse_step_arm64(opcode, registers, base, bytes.as_ptr(), bytes.len()) }
}

impl<const N: usize> Debug for Registers<N> {
    fn fmt(&self, f: &mut Formatter) -> Result {
        let Registers { pc, sp, saved } = self;
        write!(f, "{{ pc {pc:x}, sp {sp:x}, saved {saved:x?} }}")
    }
}
