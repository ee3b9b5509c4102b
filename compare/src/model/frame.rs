//! Frames and their steps, from docs/FORMAT.md, 9 and 10, alone and in whole numbers.

pub mod arm64;
pub mod arrangements;
pub mod named;
pub mod prologue;
pub mod word;
pub mod x86_64;

use crate::ffi::frame::{Registers, Rule, Step, Window};

/// The number of a refusal, and the value that it comes with.
pub type Refused = (u32, u32);

/// The highest address, and the highest end of a window.
pub const HIGHEST: i128 = u64::MAX as i128;

/// What a sound word says.
pub struct Frame<const N: usize> {
    /// The preserved register that CFA is counted from; the stack pointer where it is none.
    pub anchor: Option<usize>,
    /// CFA's distance above the anchor.
    pub distance: i128,
    /// The distance below CFA of each register that is listed.
    pub below: [Option<i128>; N],
    pub return_address: ReturnAddress,
}

pub enum ReturnAddress {
    /// In a slot so far below CFA.
    Slot(i128),
    /// In a preserved register.
    Register(usize),
}

impl<const N: usize> Frame<N> {
    /// The distance below CFA of the lowest slot that is read; 0 if none is.
    pub fn depth(&self) -> i128 {
        let listed = self.below.iter().flatten().copied();
        let lowest = listed.max().unwrap_or(0);
        match self.return_address {
            ReturnAddress::Slot(below) => lowest.max(below),
            ReturnAddress::Register(_) => lowest,
        }
    }

    fn cfa(&self, registers: &Registers<N>) -> i128 {
        let anchor = match self.anchor {
            Some(register) => registers.saved[register],
            None => registers.sp,
        };
        i128::from(anchor) + self.distance
    }

    /// The caller's registers: 26, then 27.
    fn caller(&self, registers: &Registers<N>, window: Window) -> Result<Registers<N>, Refused> {
        let cfa = self.cfa(registers);
        if end(window) > HIGHEST || cfa > HIGHEST {
            return Err((26, 0));
        }
        let slot = |below: i128| read(window, cfa - below).ok_or((27, 0));
        let mut caller = *registers;
        for (register, below) in caller.saved.iter_mut().zip(self.below) {
            if let Some(below) = below {
                *register = slot(below)?;
            }
        }
        caller.pc = match self.return_address {
            ReturnAddress::Slot(below) => slot(below)?,
            ReturnAddress::Register(register) => registers.saved[register],
        };
        caller.sp = cfa as u64;
        Ok(caller)
    }
}

fn end(window: Window) -> i128 {
    i128::from(window.base) + window.bytes.len() as i128
}

/// The slot at a place, if it lies wholly in the window.
fn read(window: Window, place: i128) -> Option<u64> {
    let base = i128::from(window.base);
    if place < base || place + 8 > end(window) {
        return None;
    }
    let offset = (place - base) as usize;
    let byte = |k| u64::from(window.bytes[offset + k]) << (8 * k);
    Some((0..8).map(byte).sum())
}

pub fn rule<const N: usize>(frame: Result<Frame<N>, Refused>) -> Rule<N> {
    match frame {
        Ok(frame) => Rule {
            refusal: 0,
            value: 0,
            cfa_distance: frame.distance as u64,
            cfa_register: frame.anchor.is_some().into(),
            below: frame.below.map(|below| below.unwrap_or(0) as u16),
        },
        Err((refusal, value)) => Rule {
            refusal,
            value,
            cfa_distance: 0,
            cfa_register: 0,
            below: [0; N],
        },
    }
}

pub fn step<const N: usize>(
    frame: Result<Frame<N>, Refused>,
    registers: Registers<N>,
    window: Window,
) -> Step<N> {
    match frame.and_then(|frame| frame.caller(&registers, window)) {
        Ok(registers) => Step {
            refusal: 0,
            value: 0,
            registers,
        },
        Err((refusal, value)) => Step {
            refusal,
            value,
            registers,
        },
    }
}

/// Bits `low` to `high` of a word, both among them.
fn bits(word: u32, low: u32, high: u32) -> u32 {
    (word >> low) % (1 << (high - low + 1))
}
