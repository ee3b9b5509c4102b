//! Parse, address range, lookup, iteration and the checker, on sections of every sort.

pub mod asked;
pub mod case;
mod check;
pub mod corpus;
pub mod damage;
pub mod families;
pub mod keys;
pub mod made;
pub mod opened;
pub mod outside;
pub mod plan;
pub mod questions;
pub mod small;
pub mod traps;

use crate::oracle::section::silence_panics;
use crate::tally::Report;
use case::Case;
use check::Checks;
use families::Family;

pub fn compare(report: &mut Report) -> std::io::Result<()> {
    silence_panics();
    let mut checks = Checks::new();
    traps::compare(&mut checks, report);
    for family in families::all(&corpus::sections()?) {
        compare_family(&mut checks, family);
    }
    corpus::compare(&mut checks, report)?;
    checks.end(report);
    Ok(())
}

fn compare_family(checks: &mut Checks, Family { name, sections }: Family) {
    let (mut count, mut well_formed) = (0, 0);
    for section in sections {
        well_formed += usize::from(checks.section(&Case::new(name, count, &section)));
        count += 1;
    }
    println!(
        "{:<44} {count:>10} sections {well_formed:>9} well formed",
        format!("sections, {name}")
    );
}
