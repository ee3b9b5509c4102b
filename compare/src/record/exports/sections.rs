//! Calls on sections: S and a section with refusals in its midst at length, then the named cases.

use super::calls::{self, case};
use super::{agreed, lent, u32s, Files};
use crate::ffi::section::{Cursor, FillAnswer, Lists, LookupAnswer};
use crate::model::{self, Refusal, Section};
use crate::record::witness::Witness;
use crate::sections::asked::Question;
use crate::sections::plan::{Function, Layout, Page, Plan, COMPRESSED, REGULAR};
use crate::sections::small::s;
use crate::sections::traps::{self, Trap};
use std::io::Result;

/// Bytes of a named section, at most.
const SHORT: usize = 256;

pub fn record(out: &mut Files) -> Result<()> {
    other_lists(out);
    empty(out);
    mixed(out)?;
    let traps = traps::all();
    let short = traps.iter().filter(|trap| trap.section.len() <= SHORT);
    short.into_iter().try_for_each(|trap| named(out, trap))
}

/// A section with lists, its header's or others.
struct Given<'a> {
    section: &'a [u8],
    lists: Lists,
    model: std::result::Result<Section<'a>, Refusal>,
}

impl<'a> Given<'a> {
    fn new(section: &'a [u8], lists: Lists) -> Self {
        Given {
            section,
            lists,
            model: Section::with_lists(section, lists),
        }
    }

    /// With the numbers of its header, also where those are refused.
    fn header(section: &'a [u8]) -> Self {
        let number = |at| match section.get(at..at + 4) {
            Some(bytes) => u32::from_le_bytes(bytes.try_into().expect("four bytes")),
            None => 0,
        };
        Given::new(section, lists([4, 8, 20, 24].map(number)))
    }

    /// The lists, then the numbers given.
    fn asked(&self, numbers: &[u32]) -> Vec<u8> {
        let Lists {
            global_opcodes_offset,
            global_opcodes_len,
            pages_offset,
            pages_len,
        } = self.lists;
        let globals = [global_opcodes_offset, global_opcodes_len];
        u32s(&[&globals, &[pages_offset, pages_len], numbers].concat())
    }

    fn range(&self, out: &mut Files) {
        let range = model::address_range(&self.model);
        let numbers = [range.refusal, range.start, range.end].map(u64::from);
        let (call, asked) = (&calls::ADDRESS_RANGE_IN, self.asked(&[]));
        out.about(self.section);
        out.record(call, &asked, &[range.refusal], numbers);
    }

    fn lookup(&self, out: &mut Files, address: u32) {
        let found = model::lookup(&self.model, address);
        let function = [found.start, found.end, found.opcode];
        let place = [found.page, found.index, found.origin.into()];
        let rest = [found.probes, found.outcome, found.refusal].map(u32::from);
        let numbers = function.into_iter().chain(place).chain(rest);
        let (call, asked) = (&calls::LOOKUP_IN, self.asked(&[address]));
        let case = case(found.outcome, found.refusal);
        out.about(self.section);
        out.record(call, &asked, &[case], numbers.map(u64::from));
    }

    fn next(&self, out: &mut Files, cursor: Cursor) -> Cursor {
        let next = model::next(&self.model, cursor);
        let function = [next.start, next.end, next.opcode];
        let rest = [
            next.page,
            next.index,
            next.function_page,
            next.function_index,
            next.origin.into(),
            next.outcome.into(),
            next.refusal.into(),
        ];
        let numbers = function.into_iter().chain(rest).map(u64::from);
        let (call, asked) = (&calls::NEXT_IN, self.asked(&[cursor.0, cursor.1]));
        let case = case(next.outcome, next.refusal);
        out.about(self.section);
        out.record(call, &asked, &[case], numbers);
        (next.page, next.index)
    }

    fn fill(&self, out: &mut Files, cursor: Cursor, room: usize) -> Cursor {
        let (answer, left) = lent::fill(&self.model, cursor, room);
        let asked = [u32s(&[room as u32, cursor.0, cursor.1]), self.asked(&[])].concat();
        out.about(self.section);
        out.record(
            &calls::FILL_IN,
            &asked,
            &left.cases,
            left.after(flat(answer)),
        );
        (answer.page, answer.index)
    }
}

fn lists([globals, globals_len, pages, pages_len]: [u32; 4]) -> Lists {
    Lists {
        global_opcodes_offset: globals,
        global_opcodes_len: globals_len,
        pages_offset: pages,
        pages_len,
    }
}

fn flat(answer: FillAnswer) -> [u64; 5] {
    let cursor = [answer.page, answer.index].map(u64::from);
    let [page, index] = cursor;
    let functions = answer.functions as u64;
    [
        functions,
        page,
        index,
        answer.outcome.into(),
        answer.refusal.into(),
    ]
}

/// By the header's lists.
fn fill(out: &mut Files, section: &[u8], cursor: Cursor, room: usize) -> Cursor {
    let (answer, left) = lent::fill(&Section::parse(section), cursor, room);
    let asked = u32s(&[room as u32, cursor.0, cursor.1]);
    out.about(section);
    out.record(&calls::FILL, &asked, &left.cases, left.after(flat(answer)));
    (answer.page, answer.index)
}

fn batch(out: &mut Files, section: &[u8], addresses: &[u32], room: usize) {
    let (count, left) = lent::batch(&looked_up(section, addresses), room);
    let nine = [addresses, &[0; 9]].concat();
    let lengths = [room as u32, addresses.len() as u32];
    let asked = u32s(&[&lengths, &nine[..9]].concat());
    out.about(section);
    out.record(
        &calls::LOOKUP_BATCH,
        &asked,
        &left.cases,
        left.after([count as u64]),
    );
}

fn looked_up(section: &[u8], addresses: &[u32]) -> Vec<LookupAnswer> {
    let model = Section::parse(section);
    let lookup = |&address| model::lookup(&model, address);
    addresses.iter().map(lookup).collect()
}

/// The Rust must say the same wherever it answers: to the questions, and in the whole iteration.
fn witnessed(name: &str, section: &[u8], questions: &[Question]) -> Result<()> {
    let witness = Witness::new(name, section);
    let iteration = witness.cursors().into_iter().map(Question::Next);
    for question in questions.iter().copied().chain(iteration) {
        witness.answer(question)?;
    }
    Ok(())
}

/// Lists for S: its own, none, others that are granted, and those that are refused: one byte past
/// the end, both, and where a sum or a product of 32 bits would wrap.
const LISTS: [[u32; 4]; 14] = [
    [28, 1, 32, 2],
    [0, 0, 0, 0],
    [80, 0, 32, 2],
    [28, 1, 44, 1],
    [28, 1, 80, 0],
    [28, 13, 20, 5],
    [81, 0, 32, 2],
    [u32::MAX, 0, 32, 2],
    [0xffff_fffc, 2, 32, 2],
    [28, 0x4000_0000, 32, 2],
    [28, 14, 32, 5],
    [28, 1, 81, 0],
    [28, 1, 0xffff_fffc, 2],
    [28, 1, 32, 0x1555_5556],
];

/// The range by all of them, the other calls by half of them.
fn other_lists(out: &mut Files) {
    let section = s();
    for (number, numbers) in LISTS.into_iter().enumerate() {
        let given = Given::new(&section, lists(numbers));
        given.range(out);
        if number % 2 == 0 {
            given.lookup(out, 0x1040);
            given.next(out, (0, 1));
            given.fill(out, (0, 0), 5);
        }
    }
}

/// No byte, with lists of no entry at 0 and one byte further.
fn empty(out: &mut Files) {
    for numbers in [[0, 0, 0, 0], [0, 0, 1, 0]] {
        let given = Given::new(&[], lists(numbers));
        given.range(out);
        given.lookup(out, 0);
        given.next(out, (0, 0));
        given.fill(out, (3, 4), 3);
    }
    fill(out, &[], (3, 4), 3);
    batch(out, &[], &[0, u32::MAX], 13);
}

/// Page after page: five functions, 6, three functions, then one before 14 and one after it.
fn mixed_plan() -> Plan {
    let page = |kind, first, functions: &[(u32, u32)], locals: &[u32]| Page {
        kind,
        first,
        functions: functions
            .iter()
            .map(|&(start, opcode)| Function { start, opcode })
            .collect(),
        locals: locals.to_vec(),
    };
    let five = [
        (0x1000, 0),
        (0x1010, 2),
        (0x1024, 1),
        (0x1100, 3),
        (0x1fff, 2),
    ];
    let three = [(0x3000, 0x0300_0405), (0x3004, 0x04ab_cdef), (0x3800, 0)];
    Plan {
        globals: vec![0x0101_0001, 0x0400_0003],
        pages: vec![
            page(COMPRESSED, 0x1000, &five, &[0x0203_0800, 0x0200_2000]),
            page(9, 0x2000, &[(0x2000, 0)], &[]),
            page(REGULAR, 0x3000, &three, &[]),
            page(
                COMPRESSED,
                0x4000,
                &[(0x4000, 0), (0x4001, 9), (0x4002, 1)],
                &[],
            ),
        ],
        end: Some(0x5000),
    }
}

const ADDRESSES: [u32; 9] = [
    0x1011, 0x1000, 0x1fff, 0x1024, 0x2abc, 0x3003, 0x4001, 0x5000, 0x4fff,
];
const OTHER_ADDRESSES: [u32; 4] = [0, 0x0fff, 0x3800, u32::MAX];
const CURSORS: [Cursor; 6] = [
    (0, 5),
    (0, u32::MAX),
    (2, 3),
    (4, 0),
    (5, 1),
    (u32::MAX, u32::MAX),
];
/// Addresses and numbers of room: enough, more, and too few.
const BATCHES: [(usize, usize); 14] = [
    (0, 0),
    (0, 12),
    (1, 0),
    (1, 5),
    (1, 6),
    (4, 23),
    (4, 24),
    (4, 60),
    (5, 24),
    (5, 30),
    (9, 11),
    (9, 53),
    (9, 54),
    (9, 60),
];
/// Numbers of room of blocks that come in a row.
const BLOCKS: [usize; 2] = [3, 60];
const BLOCKS_IN: [usize; 2] = [8, 39];
/// Those of blocks that go nowhere.
const NO_ROOM: [usize; 3] = [0, 1, 2];

fn mixed(out: &mut Files) -> Result<()> {
    let section = mixed_plan().write(&mut Layout::Plain).bytes;
    let addresses = [&ADDRESSES[..], &OTHER_ADDRESSES].concat();
    let questions: Vec<_> = addresses.iter().copied().map(Question::Lookup).collect();
    witnessed("a section with refusals in its midst", &section, &questions)?;
    let given = Given::header(&section);
    given.range(out);
    for address in addresses {
        given.lookup(out, address);
    }
    in_a_row(|cursor| given.next(out, cursor));
    for cursor in CURSORS {
        given.next(out, cursor);
        fill(out, &section, cursor, 6);
    }
    for room in NO_ROOM {
        given.fill(out, (0, 1), room);
        fill(out, &section, (2, 1), room);
    }
    for room in BLOCKS {
        in_a_row(|cursor| fill(out, &section, cursor, room));
    }
    for room in BLOCKS_IN {
        in_a_row(|cursor| given.fill(out, cursor, room));
    }
    for (count, room) in BATCHES {
        batch(out, &section, &ADDRESSES[..count], room);
    }
    Ok(())
}

/// From the first cursor on, until one stays.
fn in_a_row(mut call: impl FnMut(Cursor) -> Cursor) {
    let (mut cursor, mut before) = ((0, 0), None);
    while before != Some(cursor) {
        before = Some(cursor);
        cursor = call(cursor);
    }
}

/// What the named cases have that was not met before.
fn named(out: &mut Files, trap: &Trap) -> Result<()> {
    let questions: Vec<_> = trap.answers.iter().map(|&(question, _)| question).collect();
    witnessed(trap.name, &trap.section, &questions)?;
    let given = Given::header(&trap.section);
    for &(question, answer) in &trap.answers {
        agreed(trap.name, question.model(&trap.section), answer)?;
        let case = case(answer[0], answer[1]);
        // By given lists a header is not read, and so neither its version.
        let in_lists = case != 201;
        match question {
            Question::Lookup(address) if in_lists && !out.has_met(&calls::LOOKUP_IN, case) => {
                given.lookup(out, address);
            }
            Question::Next(cursor) if in_lists && !out.has_met(&calls::NEXT_IN, case) => {
                given.next(out, cursor);
            }
            _ => {}
        }
    }
    blocks(out, &given);
    batches(out, trap);
    Ok(())
}

fn blocks(out: &mut Files, given: &Given) {
    let (_, left) = lent::fill(&given.model, (0, 0), 12);
    if !out.has_met(&calls::FILL_IN, left.cases[0]) {
        given.fill(out, (0, 0), 12);
    }
    let (_, left) = lent::fill(&Section::parse(given.section), (0, 0), 12);
    if !out.has_met(&calls::FILL, left.cases[0]) {
        fill(out, given.section, (0, 0), 12);
    }
}

fn batches(out: &mut Files, trap: &Trap) {
    let address = |&(question, _): &(Question, _)| match question {
        Question::Lookup(address) => Some(address),
        _ => None,
    };
    let addresses: Vec<u32> = trap.answers.iter().filter_map(address).take(9).collect();
    let answers = looked_up(&trap.section, &addresses);
    let is_new = |answer: &LookupAnswer| {
        let case = case(answer.outcome, answer.refusal);
        !out.has_met(&calls::LOOKUP_BATCH, case)
    };
    if answers.iter().any(is_new) {
        let room = lent::ANSWER * addresses.len();
        batch(out, &trap.section, &addresses, room);
    }
}
