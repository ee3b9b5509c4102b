//! Both sides on the same inputs in one run.
//!
//! Ours is always a call into the library. The Rust is measured twice: behind a call that is never
//! inlined, and free to be inlined into the loop, as the compiler sees fit.

mod frames;
mod goals;
mod inputs;
mod picture;
mod processor;
mod read;
mod rows;
mod sections;
mod stack;
mod table;
mod time;
mod words;

use std::io::{Error, Result};
use table::{Row, Table};

/// All rows whose name contains the word.
pub fn run(word: &str) -> Result<()> {
    measured(&|name| name.contains(word))?;
    Ok(())
}

/// Measures the rows that matter, and draws them to a file.
pub fn draw(file: &str) -> Result<()> {
    let rows = measured(&rows::matters)?;
    show(file, &processor::at_hand(), &rows)
}

/// Draws the rows that matter of a table that was printed before.
pub fn redraw(file: &str, table: &str) -> Result<()> {
    let processor = processor::elsewhere()?;
    let mut rows = read::rows(table)?;
    rows.retain(|row| rows::matters(&row.name));
    rows.iter().for_each(|row| println!("{row}"));
    show(file, &processor, &rows)
}

fn show(file: &str, processor: &str, rows: &[Row]) -> Result<()> {
    goals::print(rows);
    std::fs::write(file, picture::draw(processor, rows))
        .map_err(|error| Error::new(error.kind(), format!("{file}: {error}")))
}

fn measured(wanted: &dyn Fn(&str) -> bool) -> Result<Vec<Row>> {
    refuse_emulation()?;
    // Read before the table begins, since what isn't there is told.
    let all = sections::sections()?;
    let table = Table::new(wanted);
    words::measure_all(&table);
    frames::measure_all(&table)?;
    sections::measure_all(&table, &all)?;
    Ok(table.rows())
}

/// `compare/run` says whether it runs the program under an emulator.
fn refuse_emulation() -> Result<()> {
    let is_set = |variable| std::env::var_os(variable).is_some();
    if !is_set("BRASSPURSE_EMULATED") {
        return Ok(());
    }
    if !is_set("BRASSPURSE_BENCH_EMULATED") {
        return Err(Error::other(
            "times measured under an emulator say nothing: run bench on an x86-64 machine, \
             or set BRASSPURSE_BENCH_EMULATED=1 to try it out",
        ));
    }
    println!("under an emulator: these times say nothing");
    Ok(())
}
