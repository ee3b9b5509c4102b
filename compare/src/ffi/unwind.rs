//! The part of the C interface that looks an address up and steps, and that looks many up.

use super::frame::{Registers, Window};
use std::mem::size_of;

/// `refusal`: 0, the lookup's, 20 where it finds none, or the step's; `value` as in a step.
/// `probes`: the lookup's, always. A refusal hands the registers back unchanged.
#[repr(C)]
#[derive(Clone, Copy, Debug, PartialEq, Eq)]
pub struct Unwound<const N: usize> {
    pub refusal: u32,
    pub value: u32,
    pub probes: u32,
    pub registers: Registers<N>,
}

/// The registers begin after 16 bytes.
const _: () = assert!(size_of::<Unwound<6>>() == 80 && size_of::<Unwound<20>>() == 192);

extern "C" {
    fn brasspurse_unwind_x86_64(
        section: *const u8,
        section_length: usize,
        address: u32,
        registers: Registers<6>,
        base: u64,
        window: *const u8,
        length: usize,
    ) -> Unwound<6>;
    fn brasspurse_unwind_arm64(
        section: *const u8,
        section_length: usize,
        address: u32,
        registers: Registers<20>,
        base: u64,
        window: *const u8,
        length: usize,
    ) -> Unwound<20>;
    fn brasspurse_lookup_batch(
        section: *const u8,
        section_length: usize,
        addresses: *const u32,
        length: usize,
        answers: *mut u32,
        room: usize,
    ) -> usize;
}

pub fn unwind_x86_64(
    section: &[u8],
    address: u32,
    registers: Registers<6>,
    Window { base, bytes }: Window,
) -> Unwound<6> {
    let (window, length) = (bytes.as_ptr(), bytes.len());
    let (section, bytes) = (section.as_ptr(), section.len());
    unsafe { brasspurse_unwind_x86_64(section, bytes, address, registers, base, window, length) }
}

pub fn unwind_arm64(
    section: &[u8],
    address: u32,
    registers: Registers<20>,
    Window { base, bytes }: Window,
) -> Unwound<20> {
    let (window, length) = (bytes.as_ptr(), bytes.len());
    let (section, bytes) = (section.as_ptr(), section.len());
    unsafe { brasspurse_unwind_arm64(section, bytes, address, registers, base, window, length) }
}

/// Six numbers for each address, as far as there is room; says how many were answered.
pub fn lookup_batch(section: &[u8], addresses: &[u32], answers: &mut [u32]) -> usize {
    let (bytes, length) = (section.as_ptr(), section.len());
    let (list, room) = (answers.as_mut_ptr(), answers.len());
    let (asked, count) = (addresses.as_ptr(), addresses.len());
    unsafe { brasspurse_lookup_batch(bytes, length, asked, count, list, room) }
}
