//! S, and what it doesn't look at.

use super::*;

pub fn traps() -> Vec<Trap> {
    vec![
        s_itself(),
        like_s(
            "personalities that can't be read",
            s_with([
                u32_at(at::PERSONALITIES_OFFSET, u32::MAX),
                u32_at(at::PERSONALITIES_LEN, u32::MAX),
            ]),
        ),
        like_s(
            "the last page has no readable kind",
            s_with([u32_at(at::END_OFFSET, u32::MAX)]),
        ),
        like_s(
            "the last page has the compressed kind",
            s_with([u32_at(at::END_OFFSET, 56)]),
        ),
        like_s(
            "the last page has an unknown kind",
            s_with([u32_at(at::END_OFFSET, 28)]),
        ),
        cut_by_one(),
        one_page_entry(),
        short_header("a header of 27 bytes", s()),
        short_header(
            "a header of 27 bytes, version 2",
            s_with([u32_at(at::VERSION, 2)]),
        ),
    ]
}

fn s_itself() -> Trap {
    trap(
        "S",
        s(),
        [
            parsed((28, 1), (32, 2)),
            range(0x1000, 0x1100),
            none(0x0fff, 2),
            found(0x1000, FIRST, 4),
            found(0x103f, FIRST, 4),
            found(0x1040, SECOND, 3),
            found(0x10ff, SECOND, 3),
            none(0x1100, 1),
            none(0xffff_ffff, 1),
            step((0, 0), FIRST, (0, 1)),
            step((0, 1), SECOND, (0, 2)),
            end((0, 2), 1),
            end((1, 0), 1),
            end((0, u32::MAX), 1),
            end((u32::MAX, 0), 1),
            end((u32::MAX, u32::MAX), 1),
            well_formed(true),
        ],
    )
}

/// S with something changed that nothing looks at.
fn like_s(name: &'static str, section: Vec<u8>) -> Trap {
    Trap {
        name,
        section,
        answers: s_itself().answers,
    }
}

/// Local opcodes are read only where one is named.
fn cut_by_one() -> Trap {
    trap(
        "S's first 79 bytes",
        s()[..79].to_vec(),
        [
            found(0x1000, FIRST, 4),
            refused(0x1040, 11, 3),
            step_refused((0, 0), 11, (1, 0)),
            step_refused((0, 1), 11, (1, 0)),
            step_refused((0, 7), 11, (1, 0)),
            end((1, 0), 1),
            well_formed(false),
        ],
    )
}

/// The only page entry is the last one.
fn one_page_entry() -> Trap {
    trap(
        "one page entry",
        s_with([u32_at(at::PAGES_LEN, 1)]),
        [
            parsed((28, 1), (32, 1)),
            range(0x1000, 0x1000),
            none(0x0fff, 1),
            none(0x1000, 1),
            end((0, 0), 0),
            end((3, 4), 0),
            well_formed(true),
        ],
    )
}

/// 1 comes before 15.
fn short_header(name: &'static str, section: Vec<u8>) -> Trap {
    trap(
        name,
        section[..27].to_vec(),
        [
            parse_refused(1),
            range_refused(1),
            refused(0x1000, 1, 0),
            step_refused((0, 0), 1, (0, 0)),
            step_refused((3, 4), 1, (3, 4)),
            well_formed(false),
        ],
    )
}
