//! Functions of a page that opens: where they start and end, and their opcodes.

use super::*;

pub fn traps() -> Vec<Trap> {
    vec![
        above_the_numbers(),
        up_to_the_numbers(),
        thirteen_before_eleven(),
        thirteen_before_fourteen(),
        past_the_list(),
        eleven_before_fourteen(),
        no_function_found(),
        end_below_start(),
        equal_keys(),
        locals_past_the_end(),
    ]
}

/// S moved up, so that its second function starts above 2^32 - 1.
fn above_the_numbers() -> Trap {
    trap(
        "a function at 2^32",
        s_with([
            u32_at(at::FIRST_ADDRESS, 0xffff_ffc0),
            u32_at(at::END_ADDRESS, 0xffff_ffff),
        ]),
        [
            range(0xffff_ffc0, 0xffff_ffff),
            none(0xffff_ffbf, 2),
            refused(0xffff_ffc0, 13, 4),
            refused(0xffff_fffe, 13, 4),
            none(0xffff_ffff, 1),
            step_refused((0, 0), 13, (0, 1)),
            step_refused((0, 1), 13, (0, 2)),
            end((0, 2), 1),
            well_formed(false),
        ],
    )
}

/// One less, so that it starts at 2^32 - 1, which is also the closing page's address.
fn up_to_the_numbers() -> Trap {
    let (first, last) = (0xffff_ffbf, 0xffff_ffff);
    let functions = [
        ((first, last, 0x0101_0001), (0, 0), IN_GLOBALS),
        ((last, last, 0x0203_0800), (0, 1), IN_LOCALS),
    ];
    trap(
        "a function at 2^32 - 1",
        s_with([
            u32_at(at::FIRST_ADDRESS, first),
            u32_at(at::END_ADDRESS, last),
        ]),
        [
            found(first, functions[0], 4),
            none(last, 1),
            step((0, 0), functions[0], (0, 1)),
            step((0, 1), functions[1], (0, 2)),
            well_formed(false),
        ],
    )
}

/// Lookup meets 13 before it grants local opcodes; iteration opens the page whole.
fn thirteen_before_eleven() -> Trap {
    let section = s_with([
        u32_at(at::FIRST_ADDRESS, 0xffff_ffc0),
        u32_at(at::END_ADDRESS, 0xffff_ffff),
        u32_at(at::FUNCTION_0, 0x0100_0000),
    ]);
    trap(
        "a function at 2^32, local opcodes cut off",
        section[..79].to_vec(),
        [
            refused(0xffff_ffc0, 13, 4),
            step_refused((0, 0), 11, (1, 0)),
            well_formed(false),
        ],
    )
}

fn thirteen_before_fourteen() -> Trap {
    trap(
        "a function at 2^32, index 255",
        s_with([
            u32_at(at::FIRST_ADDRESS, 0xffff_ffc0),
            u32_at(at::END_ADDRESS, 0xffff_ffff),
            u32_at(at::FUNCTION_0, 0xff00_0000),
        ]),
        [
            refused(0xffff_ffc0, 13, 4),
            step_refused((0, 0), 13, (0, 1)),
            well_formed(false),
        ],
    )
}

fn past_the_list() -> Trap {
    trap(
        "an index one past the local opcodes",
        s_with([u32_at(at::FUNCTION_1, 0x0200_0040)]),
        [
            found(0x1000, FIRST, 4),
            refused(0x1040, 14, 3),
            step((0, 0), FIRST, (0, 1)),
            step_refused((0, 1), 14, (0, 2)),
            end((0, 2), 1),
            well_formed(false),
        ],
    )
}

fn eleven_before_fourteen() -> Trap {
    trap(
        "an index past the local opcodes, which are cut off",
        s_with([u32_at(at::FUNCTION_1, 0xff00_0040)])[..79].to_vec(),
        [
            found(0x1000, FIRST, 4),
            refused(0x1040, 11, 3),
            step_refused((0, 0), 11, (1, 0)),
        ],
    )
}

fn no_function_found() -> Trap {
    let first = ((0x1010, 0x1040, 0x0101_0001), (0, 0), IN_GLOBALS);
    trap(
        "the first function starts after its page",
        s_with([u32_at(at::FUNCTION_0, 0x0000_0010)]),
        [
            refused(0x1000, 12, 4),
            refused(0x100f, 12, 4),
            found(0x1010, first, 4),
            step((0, 0), first, (0, 1)),
            step((0, 1), SECOND, (0, 2)),
            well_formed(false),
        ],
    )
}

/// The end is the next page's first address, wherever that is.
fn end_below_start() -> Trap {
    let second = ((0x1040, 0x1020, 0x0203_0800), (0, 1), IN_LOCALS);
    trap(
        "a function that starts past the next page",
        s_with([u32_at(at::END_ADDRESS, 0x1020)]),
        [
            found(0x101f, FIRST, 4),
            none(0x1020, 1),
            none(0x1040, 1),
            step((0, 1), second, (0, 2)),
            well_formed(false),
        ],
    )
}

/// Of equal keys the search finds the last.
fn equal_keys() -> Trap {
    let first = ((0x1000, 0x1000, 0x0101_0001), (0, 0), IN_GLOBALS);
    let second = ((0x1000, 0x1100, 0x0203_0800), (0, 1), IN_LOCALS);
    trap(
        "two functions at one address",
        s_with([u32_at(at::FUNCTION_1, 0x0100_0000)]),
        [
            found(0x1000, second, 3),
            step((0, 0), first, (0, 1)),
            step((0, 1), second, (0, 2)),
            well_formed(false),
        ],
    )
}

/// A read of 0 bytes one past the section's end is refused, even where nothing would be read.
fn locals_past_the_end() -> Trap {
    trap(
        "no local opcodes, one byte past the end",
        s_with([u16_at(at::LOCALS_OFFSET, 25), u16_at(at::LOCALS_LEN, 0)]),
        [
            found(0x1000, FIRST, 4),
            refused(0x1040, 11, 3),
            step_refused((0, 0), 11, (1, 0)),
            well_formed(false),
        ],
    )
}
