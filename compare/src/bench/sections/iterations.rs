//! All functions of a section, by blocks and by a cursor.

use super::made::Measured;
use super::{differ, parsed};
use crate::bench::table::{Table, PART};
use crate::bench::time::{called, per};
use crate::ffi::section::{self as ours, Lists, FOUND, NONE};
use crate::oracle::release_0_5_0::macho::FunctionIter;
use std::cell::RefCell;
use std::hint::black_box;
use std::io::Result;

/// Numbers in the list that is filled.
const LIST: usize = 3072;

/// Ours has the functions of the section.
pub fn agree(measured: &Measured) -> Result<()> {
    let section = &measured.bytes[..];
    let lists = ours::parse(section).lists;
    let counts = [
        by_cursor(section, lists),
        by_blocks(section, lists, &mut [0; LIST]),
    ];
    if counts.iter().any(|&count| count != measured.functions) {
        return Err(differ(measured, format!("{counts:?} functions")));
    }
    Ok(())
}

pub fn measure(table: &Table, measured: &Measured) {
    let section = &measured.bytes[..];
    let lists = ours::parse(section).lists;
    // Made once, so that its making isn't measured.
    let list = RefCell::new([0; LIST]);
    let blocks = || by_blocks(section, lists, &mut *list.borrow_mut());
    measure_by("blocks", table, measured, &blocks);
    measure_by("cursor", table, measured, &|| by_cursor(section, lists));
}

fn measure_by(by: &str, table: &Table, measured: &Measured, ours: &dyn Fn() -> usize) {
    let name = format!("iteration by {by}, {}", measured.name);
    let walk = |iterate: &dyn Fn() -> usize| walk(measured.functions, iterate);
    let section = &measured.bytes[..];
    let called = || rust_called(section);
    let free = || rust_free(section);
    table.measure(
        &name,
        1,
        [&|_| walk(ours), &|_| walk(&called), &|_| walk(&free)],
    );
}

fn rust_called(section: &[u8]) -> usize {
    let (mut all, mut functions) = (parsed(section).functions(), 0);
    while let Ok(Some(function)) = called(&|all: &mut FunctionIter| all.next(), &mut all) {
        black_box(&function);
        functions += 1;
    }
    functions
}

fn rust_free(section: &[u8]) -> usize {
    let (mut all, mut functions) = (parsed(section).functions(), 0);
    while let Ok(Some(function)) = all.next() {
        black_box(&function);
        functions += 1;
    }
    functions
}

fn by_cursor(section: &[u8], lists: Lists) -> usize {
    let (mut cursor, mut functions) = ((0, 0), 0);
    loop {
        let next = ours::next_in(section, lists, cursor);
        black_box(&next);
        if next.outcome != FOUND {
            return functions;
        }
        functions += 1;
        cursor = (next.page, next.index);
    }
}

fn by_blocks(section: &[u8], lists: Lists, list: &mut [u32]) -> usize {
    let (mut cursor, mut functions) = ((0, 0), 0);
    loop {
        let filled = ours::fill_in(section, lists, cursor, list);
        black_box(&list);
        functions += filled.functions;
        cursor = (filled.page, filled.index);
        if filled.outcome == NONE.into() {
            return functions;
        }
    }
}

/// Nanoseconds per function over at least `PART` of them.
fn walk(functions: usize, iterate: &dyn Fn() -> usize) -> f64 {
    let walks = PART.div_ceil(functions);
    per(walks * functions, || {
        for _ in 0..walks {
            black_box(iterate());
        }
    })
}
