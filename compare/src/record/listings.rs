//! Inputs of the program that lists functions, and what it has to write for them, by the second
//! reader: a file of inputs, each after its length as four bytes, and a file of their listings.

use crate::program::{listing, LIMIT};
use crate::sections::corpus;
use crate::sections::plan::{Function, Layout, Page, Plan, COMPRESSED, REGULAR, SENTINEL};
use crate::sections::small;
use std::io::{Error, Result};
use std::path::Path;

/// Real sections, of both kinds of page.
const REAL: [&str; 7] = [
    "apple_clang_amd64_darwin_exec_with_rpath",
    "oa_c",
    "oa_leafpairs",
    "oa_pairs",
    "s_gap_x64",
    "s_null_x64",
    "s_x64_old_500",
];

pub fn write(folder: &str) -> Result<()> {
    let (mut inputs, mut listings) = (Vec::new(), String::new());
    let all = [made(), real()?].concat();
    for input in &all {
        inputs.extend_from_slice(&(input.len() as u32).to_le_bytes());
        inputs.extend_from_slice(input);
        listings += &listing(input);
    }
    std::fs::write(Path::new(folder).join("stdin"), &inputs)?;
    std::fs::write(Path::new(folder).join("stdout"), &listings)?;
    println!(
        "{} inputs of {} bytes and listings of {} written to {folder}",
        all.len(),
        inputs.len(),
        listings.len()
    );
    Ok(())
}

fn made() -> Vec<Vec<u8>> {
    let s = small::s();
    let at_the_limit = at_the_end(LIMIT);
    vec![
        Vec::new(),
        vec![0; 27],
        vec![0; 28],
        with(&[0; 28], 0, 1),
        with(&s, 0, 2),
        with(&s, 0, 0x0100_0000),
        s[..79].to_vec(),
        with(&s, 8, 0x4000_0000),
        with(&s, 24, 0x1555_5556),
        s,
        refusals(),
        blocks(),
        at_the_limit[..LIMIT - 1].to_vec(),
        at_the_end(LIMIT + 1),
        at_the_limit,
    ]
}

fn real() -> Result<Vec<Vec<u8>>> {
    let sections = corpus::sections()?;
    REAL.iter()
        .map(|name| {
            let found = sections.iter().find(|real| real.name == *name);
            let real = found.ok_or_else(|| Error::other(format!("there is no section {name}")))?;
            Ok(real.bytes.clone())
        })
        .collect()
}

/// A number of 32 bits put there.
fn with(section: &[u8], offset: usize, number: u32) -> Vec<u8> {
    let mut bytes = section.to_vec();
    bytes[offset..offset + 4].copy_from_slice(&number.to_le_bytes());
    bytes
}

/// S with its page moved behind zeros, so that its last byte is the section's, `length` bytes in all.
fn at_the_end(length: usize) -> Vec<u8> {
    let s = small::s();
    let (front, page) = s.split_at(56);
    let mut bytes = with(front, 36, (length - page.len()) as u32);
    bytes.resize(length - page.len(), 0);
    bytes.extend_from_slice(page);
    bytes
}

/// So many functions of 16 bytes each.
fn page(kind: u32, first: u32, functions: u32) -> Page {
    let function = |i| Function {
        start: first + 16 * i,
        opcode: if kind == COMPRESSED {
            i % 3
        } else {
            0x0400_0001 + i
        },
    };
    Page {
        kind,
        first,
        functions: (0..functions).map(function).collect(),
        locals: vec![0x0203_0800, 0x0200_1000],
    }
}

fn section(pages: Vec<Page>, end: u32) -> Vec<u8> {
    let plan = Plan {
        globals: vec![0x0101_0001],
        pages,
        end: Some(end),
    };
    plan.write(&mut Layout::Plain).bytes
}

/// Where page `p`'s entry says that it lies.
fn offset_of(bytes: &[u8], p: usize) -> usize {
    let word = |at: usize| {
        bytes[at..at + 4]
            .iter()
            .rev()
            .fold(0, |n, b| 256 * n + usize::from(*b))
    };
    word(word(20) + 12 * p + 4)
}

/// Pages refused between others that are listed, and functions refused between others: 14, 5, 8, 4, 13.
fn refusals() -> Vec<u8> {
    let mut pages = vec![
        page(COMPRESSED, 0x1000, 5),
        page(REGULAR, 0x2000, 3),
        page(REGULAR, 0x3000, 2),
        page(COMPRESSED, 0x4000, 2),
        page(COMPRESSED, 0x5000, 1),
        page(COMPRESSED, 0xffff_fff0, 3),
    ];
    pages[0].functions[2].opcode = 3;
    pages[5].functions[1].start = 0xffff_ffff;
    pages[5].functions[2].start = 0xffff_fff8;
    let mut bytes = section(pages, 0xffff_ffff);
    let sentinel = offset_of(&bytes, 1);
    bytes[sentinel..sentinel + 4].copy_from_slice(&SENTINEL.to_le_bytes());
    let outside = offset_of(&bytes, 2);
    bytes[outside + 6..outside + 8].copy_from_slice(&u16::MAX.to_le_bytes());
    let entry = 32 + 12 * 4 + 4;
    bytes[entry..entry + 4].copy_from_slice(&u32::MAX.to_le_bytes());
    let last = offset_of(&bytes, 5);
    bytes[last + 16..last + 19].copy_from_slice(&[0xff; 3]);
    bytes
}

/// More functions than a block has room for: one page that fills a block to its end, one that is
/// refused, and one that takes more than a block.
fn blocks() -> Vec<u8> {
    let bytes = section(
        vec![
            page(COMPRESSED, 0x1_0000, 1024),
            page(COMPRESSED, 0x2_0000, 1),
            page(REGULAR, 0x3_0000, 1500),
        ],
        0x4_0000,
    );
    let at = offset_of(&bytes, 1);
    with(&bytes, at, 9)
}
