//! Lookup and iteration of sections.

mod batches;
mod iterations;
mod lookups;
mod made;
mod unwind;

use super::table::Table;
use crate::oracle::release_0_5_0::macho::UnwindInfo;
use crate::sections::corpus;
pub use made::sections;
use made::Measured;
use std::io::{Error, Result};

pub fn measure_all(table: &Table, all: &[Measured]) -> Result<()> {
    for measured in all {
        lookups::agree(measured)?;
        lookups::measure(table, measured);
        batches::measure(table, measured);
        iterations::agree(measured)?;
        iterations::measure(table, measured);
    }
    unwind::measure_all(table, all)?;
    println!();
    all.iter().for_each(Measured::print);
    if corpus::folder().is_none() {
        println!("- real sections: none, since BRASSPURSE_CORPUS names no folder with them");
    }
    Ok(())
}

/// The Rust's view of a section that it doesn't refuse.
fn parsed(section: &[u8]) -> UnwindInfo<'_> {
    UnwindInfo::parse(section).expect("a section that is measured is not refused")
}

fn differ(measured: &Measured, what: String) -> Error {
    Error::other(format!("{}: {what}", measured.name))
}
