//! Lookups of many addresses in one call, beside the Rust's single ones.

use super::made::Measured;
use super::parsed;
use crate::bench::table::{Table, PART};
use crate::bench::time::{called, each, per};
use crate::ffi::unwind::lookup_batch;
use std::cell::RefCell;
use std::hint::black_box;

/// Addresses in one call.
const LENGTHS: [usize; 2] = [64, 4096];
/// Numbers of an answer.
const ANSWER: usize = 6;

pub fn measure(table: &Table, measured: &Measured) {
    for length in LENGTHS {
        measure_by(table, measured, length);
    }
}

fn measure_by(table: &Table, measured: &Measured, length: usize) {
    let section = &measured.bytes[..];
    let parts: Vec<&[u32]> = measured.addresses.chunks(length.max(PART)).collect();
    let answers = RefCell::new(vec![0; ANSWER * length]);
    let by_batch = |addresses: &[u32]| {
        let answers = &mut answers.borrow_mut()[..];
        for batch in addresses.chunks(length) {
            lookup_batch(section, black_box(batch), answers);
            black_box(&answers);
        }
    };
    table.measure(
        &format!("batch lookup of {length}, {}", measured.name),
        parts.len(),
        [
            &|part| per(parts[part].len(), || by_batch(parts[part])),
            &|part| {
                let info = parsed(section);
                let rust = |address| info.lookup(address);
                each(parts[part], |address| called(&rust, address))
            },
            &|part| {
                let info = parsed(section);
                each(parts[part], |address| info.lookup(address))
            },
        ],
    );
}
