//! A table that `bench` has printed, read back.

use super::table::{Beside, Row};
use std::io::{Error, Result};

/// Its rows. Lines that aren't rows are passed over.
pub fn rows(file: &str) -> Result<Vec<Row>> {
    let text = std::fs::read_to_string(file)
        .map_err(|error| Error::new(error.kind(), format!("{file}: {error}")))?;
    Ok(text.lines().filter_map(row).collect())
}

/// `name | ours | called | free`, with or without a bar at its ends and ratios in brackets.
fn row(line: &str) -> Option<Row> {
    let cells: Vec<&str> = line.trim().trim_matches('|').split('|').collect();
    let [name, ours, called, free] = cells[..] else {
        return None;
    };
    let ours = ours.trim().parse().ok()?;
    Some(Row {
        name: name.trim().to_owned(),
        ours,
        called: beside(called, ours)?,
        free: beside(free, ours)?,
    })
}

/// `7.6 (3.25)`: the ratio as it stands there, since the time was rounded.
fn beside(cell: &str, ours: f64) -> Option<Beside> {
    let mut numbers = cell.split([' ', '(', ')']).filter(|part| !part.is_empty());
    let beside = Beside::new(numbers.next()?.parse().ok()?, ours);
    Some(match numbers.next() {
        Some(ratio) => Beside {
            ratio: ratio.parse().ok()?,
            ..beside
        },
        None => beside,
    })
}
