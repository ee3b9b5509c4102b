//! The sections that are measured, and the addresses that are looked up in them.

use crate::bench::inputs::INPUTS;
use crate::ffi::section::{self as ours, FOUND};
use crate::random::Random;
use crate::sections::plan::{Function, Layout, Page, Plan, REGULAR};
use crate::sections::{corpus, small};
use std::collections::BTreeSet;
use std::io::Result;

/// Real sections, all of compressed pages: their files, names in the table, and machines.
const REAL: [(&str, &str, &str); 3] = [
    ("s_x64_20k", "20k x86_64", "x86_64"),
    ("s_arm_20k", "20k arm64", "arm64"),
    ("s_arm_200k", "200k arm64", "arm64"),
];
/// Functions of a regular page of 4,096 bytes.
const PER_PAGE: usize = 511;

#[derive(Clone)]
pub struct Measured {
    pub name: String,
    /// Whose words it has.
    pub machine: &'static str,
    pub bytes: Vec<u8>,
    /// In random order, each covered by a function; all different where there are enough.
    pub addresses: Vec<u32>,
    pub functions: usize,
}

/// S, and real sections as they are and rewritten with regular pages.
pub fn sections() -> Result<Vec<Measured>> {
    let mut all = vec![measured(("S", "x86_64"), small::s())];
    let real = corpus::sections()?;
    for (file, name, machine) in REAL {
        if let Some(real) = real.iter().find(|real| real.name == file) {
            let regular = regular(&listed(&real.bytes));
            all.push(measured((name, machine), real.bytes.clone()));
            all.push(measured((&format!("{name} regular"), machine), regular));
        }
    }
    Ok(all)
}

impl Measured {
    /// Says what its numbers are.
    pub fn print(&self) {
        let different = self.addresses.iter().collect::<BTreeSet<_>>().len();
        println!(
            "- {}: {} functions in {} bytes; {} addresses, {different} different",
            self.name,
            self.functions,
            self.bytes.len(),
            self.addresses.len()
        );
    }
}

/// Start, end and opcode of every function.
pub fn listed(section: &[u8]) -> Vec<(u32, u32, u32)> {
    let (mut functions, mut cursor) = (Vec::new(), (0, 0));
    loop {
        let next = ours::next(section, cursor);
        if next.outcome != FOUND {
            return functions;
        }
        functions.push((next.start, next.end, next.opcode));
        cursor = (next.page, next.index);
    }
}

pub fn measured((name, machine): (&str, &'static str), bytes: Vec<u8>) -> Measured {
    let functions = listed(&bytes);
    Measured {
        name: name.to_owned(),
        machine,
        bytes,
        addresses: addresses(&functions),
        functions: functions.len(),
    }
}

fn addresses(functions: &[(u32, u32, u32)]) -> Vec<u32> {
    let mut random = Random::new(19);
    let lengths = functions
        .iter()
        .map(|&(start, end, _)| (end - start) as usize);
    let may_repeat = lengths.sum::<usize>() < 2 * INPUTS;
    let (mut addresses, mut seen) = (Vec::new(), BTreeSet::new());
    while addresses.len() < INPUTS {
        let (start, end, _) = functions[random.below(functions.len() as u32) as usize];
        let address = start + random.below(end - start);
        if seen.insert(address) || may_repeat {
            addresses.push(address);
        }
    }
    addresses
}

/// The same functions in regular pages, and a closing page entry.
fn regular(functions: &[(u32, u32, u32)]) -> Vec<u8> {
    let page = |page: &[(u32, u32, u32)]| Page {
        kind: REGULAR,
        first: page[0].0,
        functions: page
            .iter()
            .map(|&(start, _, opcode)| Function { start, opcode })
            .collect(),
        locals: Vec::new(),
    };
    let plan = Plan {
        globals: Vec::new(),
        pages: functions.chunks(PER_PAGE).map(page).collect(),
        end: functions.last().map(|&(_, end, _)| end),
    };
    plan.write(&mut Layout::Plain).bytes
}
