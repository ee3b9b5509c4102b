//! A section with a very long listing: as many bytes as a program accepts, 65,536, and 89,358,375
//! functions.
//!
//! All page entries but the last name one compressed page. It stands between the header and the
//! entries, and its functions begin in its own head and run over the entries to the end. The
//! global opcodes are 256 numbers from the start on, so that every index names one.

use crate::ffi::section::{self as ours, FOUND, NONE, REFUSED};
use std::io::{Error, Result};

const LENGTH: usize = 65_536;
const PAGE: u32 = 28;
const ENTRIES: u32 = 40;
const ENTRY_COUNT: u32 = (LENGTH as u32 - ENTRIES) / 12;
/// In the page, after its kind and its functions' place.
const FUNCTIONS_OFFSET: u16 = 8;
const FUNCTION_COUNT: u16 = ((LENGTH as u32 - PAGE - FUNCTIONS_OFFSET as u32) / 4) as u16;
/// Numbers in the list that is filled to count functions.
const LIST: usize = 3072;

pub fn write(file: &str) -> Result<()> {
    let section = section();
    std::fs::write(file, &section)?;
    println!(
        "{} bytes written to {file}, which list {} functions",
        section.len(),
        count(&section)?
    );
    Ok(())
}

pub fn section() -> Vec<u8> {
    // The header, with global opcodes from 0 on and no personalities.
    let header = [1, 0, 256, 0, 0, ENTRIES, ENTRY_COUNT];
    let functions = u32::from(FUNCTION_COUNT) << 16 | u32::from(FUNCTIONS_OFFSET);
    // Its last number says that there are no local opcodes, and is the first function.
    let page = [3, functions, 0];
    let entries = (0..ENTRY_COUNT).flat_map(|entry| [entry, PAGE, 0]);
    let numbers = header.into_iter().chain(page).chain(entries);
    numbers.flat_map(u32::to_le_bytes).collect()
}

fn count(section: &[u8]) -> Result<u64> {
    let lists = ours::parse(section).lists;
    let (mut list, mut cursor, mut functions) = ([0; LIST], (0, 0), 0);
    loop {
        let filled = ours::fill_in(section, lists, cursor, &mut list);
        functions += filled.functions as u64;
        cursor = (filled.page, filled.index);
        match u8::try_from(filled.outcome) {
            Ok(NONE) => return Ok(functions),
            Ok(FOUND) => {}
            Ok(REFUSED) => return Err(Error::other(format!("refused {}", filled.refusal))),
            _ => return Err(Error::other(format!("outcome {}", filled.outcome))),
        }
    }
}
