//! The header: other versions; its two lists, with sums that would wrap, and reads of 0 bytes.

use super::*;

pub fn traps() -> Vec<Trap> {
    let mut traps = other_versions();
    traps.extend(would_wrap());
    traps.extend(unreadable());
    traps.extend([no_globals(), no_pages(), most_globals()]);
    traps
}

/// The third is 1 as big-endian; in the last one 15 comes before 2.
fn other_versions() -> Vec<Trap> {
    let version = |number| u32_at(at::VERSION, number);
    vec![
        refused_by("version 0", 15, [version(0)]),
        refused_by("version 2", 15, [version(2)]),
        refused_by("version 0x01000000", 15, [version(0x0100_0000)]),
        refused_by("version 0xffffffff", 15, [version(0xffff_ffff)]),
        refused_by(
            "version 257, global opcodes unreadable",
            15,
            [version(257), u32_at(at::GLOBALS_LEN, 14)],
        ),
    ]
}

fn would_wrap() -> Vec<Trap> {
    vec![
        refused_by("global count 0x40000000", 2, globals(28, 0x4000_0000)),
        refused_by("page count 0x15555556", 3, pages(32, 0x1555_5556)),
        refused_by("2 global opcodes at 0xfffffffc", 2, globals(0xffff_fffc, 2)),
        refused_by("2 pages at 0xfffffffc", 3, pages(0xffff_fffc, 2)),
        refused_by(
            "no global opcodes, at 0xffffffff",
            2,
            globals(0xffff_ffff, 0),
        ),
    ]
}

fn unreadable() -> Vec<Trap> {
    let both = [u32_at(at::GLOBALS_LEN, 14), u32_at(at::PAGES_LEN, 5)];
    vec![
        refused_by("both lists unreadable", 2, both),
        refused_by(
            "no global opcodes, one byte past the end",
            2,
            globals(81, 0),
        ),
        refused_by("no pages, one byte past the end", 3, pages(81, 0)),
    ]
}

fn globals(offset: u32, len: u32) -> [Edit; 2] {
    [
        u32_at(at::GLOBALS_OFFSET, offset),
        u32_at(at::GLOBALS_LEN, len),
    ]
}

fn pages(offset: u32, len: u32) -> [Edit; 2] {
    [u32_at(at::PAGES_OFFSET, offset), u32_at(at::PAGES_LEN, len)]
}

/// S with another header: all questions are refused, and no cursor moves.
fn refused_by<const N: usize>(name: &'static str, refusal: u32, edits: [Edit; N]) -> Trap {
    trap(
        name,
        s_with(edits),
        [
            parse_refused(refusal),
            range_refused(refusal),
            refused(0x1000, refusal, 0),
            step_refused((0, 0), refusal, (0, 0)),
            step_refused((1, 2), refusal, (1, 2)),
            well_formed(false),
        ],
    )
}

/// A read of 0 bytes at the section's end is granted. Index 0 is then the local opcode's, and
/// index 1 past the list.
fn no_globals() -> Trap {
    let local = ((0x1000, 0x1040, 0x0203_0800), (0, 0), IN_LOCALS);
    trap(
        "no global opcodes, at the end",
        s_with(globals(80, 0)),
        [
            parsed((80, 0), (32, 2)),
            found(0x1000, local, 4),
            refused(0x1040, 14, 3),
            step((0, 0), local, (0, 1)),
            step_refused((0, 1), 14, (0, 2)),
            end((0, 2), 1),
            well_formed(false),
        ],
    )
}

fn no_pages() -> Trap {
    trap(
        "no pages, at the end",
        s_with(pages(80, 0)),
        [
            parsed((28, 1), (80, 0)),
            range(0, 0),
            none(0, 0),
            none(0x1000, 0),
            end((0, 0), 0),
            end((9, 9), 0),
            well_formed(true),
        ],
    )
}

/// Global opcodes up to the section's end: index 1 is a global one, and the local one isn't read.
fn most_globals() -> Trap {
    let mut section = s_with([u32_at(at::GLOBALS_LEN, 12)]);
    section.truncate(76);
    let global = ((0x1040, 0x1100, 0x1000), (0, 1), IN_GLOBALS);
    trap(
        "global opcodes up to the end, no local one",
        section,
        [
            parsed((28, 12), (32, 2)),
            found(0x1040, global, 3),
            step_refused((0, 0), 11, (1, 0)),
            well_formed(false),
        ],
    )
}
