//! Feeds the proved functions of `libbrasspurse.a` and the Rust crate the same inputs.
//!
//! `compare` counts equal and different answers, `sections` those on sections alone, `frames` those
//! on frames alone, `unwind` those on lookups with a step alone, `program` the lines of the program
//! that lists functions; `record FILE` and `record-sections FILE` write answers of the Rust for a
//! replay, `record-frames FILE` those of a processor, `record-exports FOLDER` those of the model
//! and the Rust on the other exports, `record-listings FOLDER` listings; `worst FILE` writes a
//! section with a very long listing, `bench` measures both, `bench-svg FILE` draws what it measured,
//! or what a file with `bench`'s table says.

mod bench;
mod encoder;
mod ffi;
mod fields;
mod frames;
mod header;
mod model;
mod numbers;
mod oracle;
mod permutations;
mod program;
mod random;
mod reads;
mod record;
mod registers;
mod sections;
mod tally;
mod unwind;
mod words;
mod worst;

use std::process::ExitCode;
use tally::Report;

fn main() -> ExitCode {
    let arguments: Vec<String> = std::env::args().skip(1).collect();
    let arguments: Vec<&str> = arguments.iter().map(String::as_str).collect();
    match arguments[..] {
        [] | ["compare"] => compare(all),
        ["sections"] => compare(sections::compare),
        ["frames"] => compare(frames::compare),
        ["unwind"] => compare(unwind::compare),
        ["program", ref command @ ..] => compare(|report| program::compare(command, report)),
        ["record", file] => done(record::write(file)),
        ["record-sections", file] => done(record::sections::write(file)),
        ["record-frames", file] => done(record::frames::write(file)),
        ["record-listings", folder] => done(record::listings::write(folder)),
        ["record-exports", folder] => done(record::exports::write(folder)),
        ["worst", file] => done(worst::write(file)),
        ["bench"] => done(bench::run("")),
        ["bench", word] => done(bench::run(word)),
        ["bench-svg", file] => done(bench::draw(file)),
        ["bench-svg", file, table] => done(bench::redraw(file, table)),
        _ => {
            eprintln!(
                "usage: compare/run [compare | sections | frames | unwind | program COMMAND \
                 | record FILE | record-sections FILE | record-frames FILE \
                 | record-exports FOLDER | record-listings FOLDER | worst FILE \
                 | bench [WORD] | bench-svg FILE [TABLE]]"
            );
            ExitCode::from(2)
        }
    }
}

fn compare(subjects: impl FnOnce(&mut Report) -> std::io::Result<()>) -> ExitCode {
    let mut report = Report::default();
    match subjects(&mut report) {
        Ok(()) => report.end(),
        Err(e) => done(Err(e)),
    }
}

fn all(report: &mut Report) -> std::io::Result<()> {
    numbers::compare(report);
    permutations::compare(report);
    encoder::compare(report);
    words::compare(report);
    registers::compare(report);
    fields::compare(report);
    reads::compare(report);
    header::compare(report)?;
    frames::compare(report)?;
    sections::compare(report)?;
    unwind::compare(report)
}

fn done(result: std::io::Result<()>) -> ExitCode {
    match result {
        Ok(()) => ExitCode::SUCCESS,
        Err(e) => {
            eprintln!("compare: {e}");
            ExitCode::from(2)
        }
    }
}
