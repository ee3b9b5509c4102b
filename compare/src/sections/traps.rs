//! Named cases that wrong programs are known to fall into, with the answers that docs/FORMAT.md
//! gives (13.3 has some of them).

mod lists;
mod pages;
mod places;
mod whole;

use super::asked::{zeros_after, Answer, Question};
use super::case::Case;
use super::check::Checks;
use super::small::s;
use crate::ffi::section::{Cursor, IN_ENTRY, IN_GLOBALS, IN_LOCALS};
use crate::tally::{Report, Tally};
use Question::{Lookup, Next, Parse, Range, WellFormed};

pub struct Trap {
    pub name: &'static str,
    pub section: Vec<u8>,
    pub answers: Vec<(Question, Answer)>,
}

pub fn all() -> Vec<Trap> {
    [
        whole::traps(),
        lists::traps(),
        pages::traps(),
        places::traps(),
    ]
    .into_iter()
    .flatten()
    .collect()
}

/// The answers written down here, and then all questions.
pub fn compare(checks: &mut Checks, report: &mut Report) {
    let mut ours = Tally::new("sections, named cases");
    let mut model = Tally::new("sections, named cases, of the model");
    let traps = all();
    for trap in &traps {
        for &(question, answer) in &trap.answers {
            let input = || format!("{question:?} of {}", trap.name);
            model.check(input, question.model(&trap.section), answer);
            // As in `Checks::section`; the first question is on the lists where they are wrong.
            if !ours.check(input, question.ours(&trap.section), answer) {
                break;
            }
        }
    }
    report.add(ours);
    report.add(model);
    for (number, trap) in traps.iter().enumerate() {
        checks.section(&Case::new(trap.name, number, &trap.section));
    }
    println!("{:<44} {:>10} sections", "sections, named", traps.len());
}

fn trap<const N: usize>(
    name: &'static str,
    section: Vec<u8>,
    answers: [(Question, Answer); N],
) -> Trap {
    Trap {
        name,
        section,
        answers: answers.into(),
    }
}

/// A number put into S: its place and its bytes.
struct Edit(usize, Vec<u8>);

fn u32_at(offset: usize, number: u32) -> Edit {
    Edit(offset, number.to_le_bytes().into())
}

fn u16_at(offset: usize, number: u16) -> Edit {
    Edit(offset, number.to_le_bytes().into())
}

fn s_with<const N: usize>(edits: [Edit; N]) -> Vec<u8> {
    edits.iter().fold(s(), |mut section, Edit(offset, bytes)| {
        section[*offset..*offset + bytes.len()].copy_from_slice(bytes);
        section
    })
}

/// Where S has its numbers.
mod at {
    pub const VERSION: usize = 0;
    pub const GLOBALS_OFFSET: usize = 4;
    pub const GLOBALS_LEN: usize = 8;
    pub const PERSONALITIES_OFFSET: usize = 12;
    pub const PERSONALITIES_LEN: usize = 16;
    pub const PAGES_OFFSET: usize = 20;
    pub const PAGES_LEN: usize = 24;
    pub const FIRST_ADDRESS: usize = 32;
    pub const PAGE_OFFSET: usize = 36;
    pub const END_ADDRESS: usize = 44;
    pub const END_OFFSET: usize = 48;
    pub const KIND: usize = 56;
    pub const FUNCTIONS_OFFSET: usize = 60;
    pub const FUNCTIONS_LEN: usize = 62;
    pub const LOCALS_OFFSET: usize = 64;
    pub const LOCALS_LEN: usize = 66;
    pub const FUNCTION_0: usize = 68;
    pub const FUNCTION_1: usize = 72;
    pub const LOCAL: usize = 76;
}

/// Start, end and opcode of a function; its page and index; where its opcode stands.
type Function = ((u32, u32, u32), Cursor, u8);

/// S's two functions.
const FIRST: Function = ((0x1000, 0x1040, 0x0101_0001), (0, 0), IN_GLOBALS);
const SECOND: Function = ((0x1040, 0x1100, 0x0203_0800), (0, 1), IN_LOCALS);

/// A function's answer, with what comes last in it.
fn function(((start, end, opcode), (page, index), origin): Function, last: [u32; 2]) -> Answer {
    let origin = origin.into();
    let [a, b] = last;
    [1, 0, start, end, opcode, page, index, origin, a, b]
}

fn found(address: u32, found: Function, probes: u32) -> (Question, Answer) {
    (Lookup(address), function(found, [probes, 0]))
}

fn none(address: u32, probes: u32) -> (Question, Answer) {
    (Lookup(address), [0, 0, 0, 0, 0, 0, 0, 0, probes, 0])
}

fn refused(address: u32, refusal: u32, probes: u32) -> (Question, Answer) {
    (Lookup(address), [2, refusal, 0, 0, 0, 0, 0, 0, probes, 0])
}

/// A step from a cursor, and the cursor after it.
fn step(from: Cursor, found: Function, (page, index): Cursor) -> (Question, Answer) {
    (Next(from), function(found, [page, index]))
}

fn step_refused(from: Cursor, refusal: u32, (page, index): Cursor) -> (Question, Answer) {
    (Next(from), [2, refusal, 0, 0, 0, 0, 0, 0, page, index])
}

/// The end, which hands back the last page's number.
fn end(from: Cursor, last_page: u32) -> (Question, Answer) {
    (Next(from), [0, 0, 0, 0, 0, 0, 0, 0, last_page, 0])
}

fn parsed(globals: (u32, u32), pages: (u32, u32)) -> (Question, Answer) {
    let lists = [1, 0, globals.0, globals.1, pages.0, pages.1];
    (Parse, zeros_after(lists))
}

fn parse_refused(refusal: u32) -> (Question, Answer) {
    (Parse, zeros_after([2, refusal]))
}

fn range(start: u32, end: u32) -> (Question, Answer) {
    (Range, zeros_after([1, 0, start, end]))
}

fn range_refused(refusal: u32) -> (Question, Answer) {
    (Range, zeros_after([2, refusal]))
}

fn well_formed(answer: bool) -> (Question, Answer) {
    (WellFormed, zeros_after([answer.into()]))
}
