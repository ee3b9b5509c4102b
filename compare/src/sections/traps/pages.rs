//! Opening pages: kinds, heads, lists of functions and of local opcodes.

use super::*;
use crate::sections::plan::{Function as Planned, Layout, Page, Plan, REGULAR};

pub fn traps() -> Vec<Trap> {
    let mut traps = unopened();
    traps.extend(unreadable_functions());
    traps.extend([
        no_functions_no_locals(),
        empty_page(),
        empty_page_first(),
        functions_at_the_end(),
        locals_at_the_end(),
        beyond_4096_bytes(),
    ]);
    traps
}

fn unopened() -> Vec<Trap> {
    let offset = |offset| [u32_at(at::PAGE_OFFSET, offset)];
    let kind = |kind| [u32_at(at::KIND, kind)];
    // The last four bytes as a page that is cut off.
    let head = |kind| [u32_at(at::PAGE_OFFSET, 76), u32_at(at::LOCAL, kind)];
    vec![
        refused_by("page offset 77", 4, offset(77)),
        refused_by("page offset at the end", 4, offset(80)),
        refused_by("page offset 0xfffffffc", 4, offset(0xffff_fffc)),
        refused_by("sentinel before the last page", 5, kind(1)),
        refused_by("page kind 0", 6, kind(0)),
        refused_by("page kind 4", 6, kind(4)),
        refused_by("page kind 0x10003", 6, kind(0x1_0003)),
        refused_by("regular page cut off", 7, head(2)),
        refused_by("compressed page cut off", 9, head(3)),
    ]
}

fn unreadable_functions() -> Vec<Trap> {
    let functions = |offset, len| {
        [
            u16_at(at::FUNCTIONS_OFFSET, offset),
            u16_at(at::FUNCTIONS_LEN, len),
        ]
    };
    vec![
        // 8 bytes each, so that two are too many.
        refused_by("regular functions past the end", 8, [u32_at(at::KIND, 2)]),
        refused_by("compressed functions past the end", 10, functions(12, 4)),
        refused_by("65,535 functions at 65,535", 10, functions(0xffff, 0xffff)),
        refused_by("no functions, one byte past the end", 10, functions(25, 0)),
    ]
}

/// S with a page that doesn't open, in lookup nor in iteration.
fn refused_by<const N: usize>(name: &'static str, refusal: u32, edits: [Edit; N]) -> Trap {
    trap(
        name,
        s_with(edits),
        [
            parsed((28, 1), (32, 2)),
            none(0x0fff, 2),
            refused(0x1000, refusal, 2),
            none(0x1100, 1),
            step_refused((0, 0), refusal, (1, 0)),
            step_refused((0, 5), refusal, (1, 0)),
            end((1, 0), 1),
            well_formed(false),
        ],
    )
}

fn no_functions_no_locals() -> Trap {
    trap(
        "no functions, local opcodes one byte past the end",
        s_with([u16_at(at::FUNCTIONS_LEN, 0)])[..79].to_vec(),
        [
            refused(0x1000, 12, 2),
            step_refused((0, 0), 11, (1, 0)),
            well_formed(false),
        ],
    )
}

fn empty_page() -> Trap {
    trap(
        "an empty page",
        s_with([u16_at(at::FUNCTIONS_LEN, 0)]),
        [
            range(0x1000, 0x1100),
            refused(0x1000, 12, 2),
            end((0, 0), 1),
            well_formed(false),
        ],
    )
}

fn empty_page_first() -> Trap {
    let page = |first, functions: &[Planned]| Page {
        kind: REGULAR,
        first,
        functions: functions.to_vec(),
        locals: Vec::new(),
    };
    let (start, opcode) = (0x1100, 0x0200_0000);
    let plan = Plan {
        globals: Vec::new(),
        pages: vec![
            page(0x1000, &[]),
            page(0x1100, &[Planned { start, opcode }]),
        ],
        end: Some(0x1200),
    };
    let function = ((start, 0x1200, opcode), (1, 0), IN_ENTRY);
    trap(
        "an empty page before another",
        plan.write(&mut Layout::Plain).bytes,
        [
            refused(0x1000, 12, 2),
            found(0x1100, function, 3),
            none(0x1200, 2),
            step((0, 0), function, (1, 1)),
            step((0, u32::MAX), function, (1, 1)),
            step((1, 0), function, (1, 1)),
            end((1, 1), 2),
            well_formed(false),
        ],
    )
}

fn functions_at_the_end() -> Trap {
    trap(
        "no functions, at the end",
        s_with([
            u16_at(at::FUNCTIONS_OFFSET, 24),
            u16_at(at::FUNCTIONS_LEN, 0),
        ]),
        [refused(0x1000, 12, 2), end((0, 0), 1), well_formed(false)],
    )
}

fn locals_at_the_end() -> Trap {
    trap(
        "no local opcodes, at the end",
        s_with([u16_at(at::LOCALS_OFFSET, 24), u16_at(at::LOCALS_LEN, 0)]),
        [
            found(0x1000, FIRST, 4),
            refused(0x1040, 14, 3),
            step((0, 0), FIRST, (0, 1)),
            step_refused((0, 1), 14, (0, 2)),
            well_formed(false),
        ],
    )
}

/// 701 functions of 8 bytes, as a real linker's page has: the page runs to the section's end.
fn beyond_4096_bytes() -> Trap {
    let function = |i: u32| Planned {
        start: 0x1000 + 16 * i,
        opcode: 0x0200_0000 + i,
    };
    let plan = Plan {
        globals: Vec::new(),
        pages: vec![Page {
            kind: REGULAR,
            first: 0x1000,
            functions: (0..701).map(function).collect(),
            locals: Vec::new(),
        }],
        end: Some(0x3bd0),
    };
    let first = ((0x1000, 0x1010, 0x0200_0000), (0, 0), IN_ENTRY);
    let middle = ((0x25e0, 0x25f0, 0x0200_015e), (0, 350), IN_ENTRY);
    let last = ((0x3bc0, 0x3bd0, 0x0200_02bc), (0, 700), IN_ENTRY);
    trap(
        "a page of 701 functions",
        plan.write(&mut Layout::Plain).bytes,
        [
            found(0x1000, first, 12),
            // The search goes on where it meets the key.
            found(0x25e0, middle, 12),
            found(0x3bcf, last, 11),
            none(0x3bd0, 1),
            step((0, 700), last, (0, 701)),
            end((0, 701), 1),
            well_formed(true),
        ],
    )
}
