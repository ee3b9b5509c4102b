//! What a function does to the stack, as docs/FORMAT.md, 9, tells it: its prologue, then any body.
//!
//! Words are put together here from what the prologue does, and none is taken apart.

pub mod arm64;
pub mod x86_64;

use crate::ffi::frame::{Registers, Window};
use crate::random::Random;

/// A sound word's prologue.
pub trait Prologue<const N: usize> {
    /// The word, its ignored bits taken from `noise`.
    fn word(&self, noise: u32) -> u32;
    /// Bytes of the whole frame.
    fn bytes(&self) -> u64;
    /// The call, from a stack pointer that stands at CFA.
    fn call(&self, running: &mut Running<N>, return_address: u64);
    /// The prologue, from the function's entry on.
    fn run(&self, running: &mut Running<N>);
}

/// A function that runs, its frame inside of the window.
pub struct Running<const N: usize> {
    pub registers: Registers<N>,
    base: u64,
    bytes: Vec<u8>,
    /// Bytes that the body leaves alone.
    kept: Vec<bool>,
    /// Registers that the body may change.
    free: [bool; N],
    stack_pointer_is_free: bool,
}

impl<const N: usize> Running<N> {
    pub fn new(registers: Registers<N>, window: Window) -> Self {
        Running {
            registers,
            base: window.base,
            bytes: window.bytes.to_vec(),
            kept: vec![false; window.bytes.len()],
            free: [false; N],
            stack_pointer_is_free: true,
        }
    }

    pub fn bytes(self) -> Vec<u8> {
        self.bytes
    }

    /// Changes all that a body may change.
    pub fn body(&mut self, random: &mut Random) {
        self.registers.pc = random.long();
        if self.stack_pointer_is_free {
            self.registers.sp = random.long();
        }
        for (register, free) in self.registers.saved.iter_mut().zip(self.free) {
            if free {
                *register = random.long();
            }
        }
        for (byte, kept) in self.bytes.iter_mut().zip(&self.kept) {
            if !kept {
                *byte = byte.wrapping_add(0x5b);
            }
        }
    }

    /// Writes to a slot that the body leaves alone.
    fn write(&mut self, place: u64, value: u64) {
        let start = (place - self.base) as usize;
        self.bytes[start..start + 8].copy_from_slice(&value.to_le_bytes());
        self.kept[start..start + 8].fill(true);
    }

    fn push(&mut self, value: u64) {
        self.registers.sp -= 8;
        self.write(self.registers.sp, value);
    }

    /// Saves a register, so that the body may change it.
    fn store(&mut self, place: u64, register: usize) {
        self.write(place, self.registers.saved[register]);
        self.free[register] = true;
    }

    fn push_register(&mut self, register: usize) {
        self.push(self.registers.saved[register]);
        self.free[register] = true;
    }

    /// Sets a register that the body then leaves alone.
    fn anchor(&mut self, register: usize, place: u64) {
        self.registers.saved[register] = place;
        self.free[register] = false;
    }

    fn anchor_stack_pointer(&mut self, place: u64) {
        self.registers.sp = place;
        self.stack_pointer_is_free = false;
    }
}
