//! The header's enum lines, read when the program runs.

use crate::tally::Tally;
use std::cell::RefCell;
use std::collections::{BTreeMap, BTreeSet};
use std::io::{Error, Result};

/// Names the header's file; `compare/run` sets it.
const VARIABLE: &str = "COMPACT_UNWIND_HEADER";

/// Constants by name, and the names that a check asked for.
pub struct Constants {
    values: BTreeMap<String, u32>,
    held: RefCell<BTreeSet<String>>,
}

impl Constants {
    pub fn read() -> Result<Self> {
        let file = std::env::var(VARIABLE).map_err(|e| Error::other(format!("{VARIABLE}: {e}")))?;
        let text =
            std::fs::read_to_string(&file).map_err(|e| Error::other(format!("{file}: {e}")))?;
        let values = text.lines().filter_map(constant).collect();
        Ok(Constants {
            values,
            held: RefCell::default(),
        })
    }

    pub fn get(&self, name: &str) -> u32 {
        self.held.borrow_mut().insert(name.to_string());
        *self
            .values
            .get(name)
            .unwrap_or_else(|| panic!("the header has no {name}"))
    }

    /// Every constant of the two machines must have been asked for.
    pub fn unheld(&self) -> Tally {
        let mut tally = Tally::new("header, constants held");
        let held = self.held.borrow();
        for name in self.values.keys().filter(|name| is_ours(name)) {
            tally.check(|| name.clone(), held.contains(name), true);
        }
        tally
    }
}

/// x86 isn't ported.
fn is_ours(name: &str) -> bool {
    !name.starts_with("UNWIND_X86_") || name.starts_with("UNWIND_X86_64_")
}

/// `    UNWIND_NAME = 0x12,` or with a decimal number.
fn constant(line: &str) -> Option<(String, u32)> {
    let (name, value) = line.trim().strip_suffix(',')?.split_once('=')?;
    if !name.starts_with("UNWIND_") {
        return None;
    }
    let value = match value.trim().strip_prefix("0x") {
        Some(digits) => u32::from_str_radix(digits, 16),
        None => value.trim().parse(),
    };
    Some((name.trim().to_string(), value.ok()?))
}
