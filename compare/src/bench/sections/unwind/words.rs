//! Sections with words for a machine.

use crate::bench::sections::made::{listed, measured, Measured};
use crate::frames::machine::Machine;
use crate::frames::words;
use crate::random::Random;
use crate::sections::plan::{Function, Layout, Page, Plan, COMPRESSED};

/// Sections that only one machine has.
const LACKING: [&str; 2] = ["S", "200k arm64"];
/// Words in place of a section's own, at most, and functions of a page.
const WORDS: usize = 100;
const PER_PAGE: usize = 1_000;

/// A machine's own sections, and those that it lacks with sound words of its own.
pub fn sections<const N: usize>(machine: &Machine<N>, all: &[Measured]) -> Vec<Measured> {
    let mut sections = Vec::new();
    for measured in all {
        if measured.machine == machine.name {
            sections.push(measured.clone());
        } else if LACKING.contains(&&measured.name[..]) {
            sections.push(with_words(machine, measured));
        }
    }
    sections
}

/// The same functions in compressed pages, with other words.
fn with_words<const N: usize>(machine: &Machine<N>, of: &Measured) -> Measured {
    let mut random = Random::new(30);
    let functions = listed(&of.bytes);
    let globals: Vec<u32> = (0..functions.len().min(WORDS))
        .map(|_| words::sound(machine, &mut random))
        .collect();
    let mut function = |&(start, _, _): &(u32, u32, u32)| Function {
        start,
        opcode: random.below(globals.len() as u32),
    };
    let page = |page: &[(u32, u32, u32)]| Page {
        kind: COMPRESSED,
        first: page[0].0,
        functions: page.iter().map(&mut function).collect(),
        locals: Vec::new(),
    };
    let pages = functions.chunks(PER_PAGE).map(page).collect();
    let end = functions.last().map(|&(_, end, _)| end);
    let plan = Plan {
        globals,
        pages,
        end,
    };
    let name = format!("{} with {} words", of.name, machine.name);
    measured((&name, machine.name), plan.write(&mut Layout::Plain).bytes)
}
