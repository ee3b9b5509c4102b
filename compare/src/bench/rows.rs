//! The rows that matter, by groups, as docs/BENCHMARKS.md shows them.

use super::table::Row;

pub struct Group {
    pub head: &'static str,
    /// The least ratio of the times, the Rust's / ours, that is aimed at; none where the Rust does
    /// less work.
    pub goal: Option<f64>,
    /// The name of each row in the table, and in the picture.
    pub rows: &'static [(&'static str, &'static str)],
}

pub const GROUPS: [Group; 7] = [
    Group {
        head: "Decoding a permutation",
        goal: Some(2.0),
        rows: &[
            ("permutations, accepted", "accepted"),
            ("permutations, random", "many refused"),
        ],
    },
    Group {
        head: "Decoding an opcode word",
        goal: Some(1.5),
        rows: &[
            ("x86_64 words, mixed kinds", "x86_64, mixed kinds"),
            ("x86_64 words, frame-based", "x86_64, frame-based"),
            ("x86_64 words, frameless immediate", "x86_64, frameless"),
            ("arm64 words, mixed kinds", "arm64, mixed kinds"),
            ("arm64 words, frame-based", "arm64, frame-based"),
        ],
    },
    Group {
        head: "Lookup, one address in a call",
        goal: Some(1.0),
        rows: &[
            ("lookup, S", "section S, 2 functions"),
            ("lookup, 20k arm64", "11,030 functions"),
            ("lookup, 20k x86_64", "19,884 functions"),
            ("lookup, 20k x86_64 regular", "19,884, in regular pages"),
            ("lookup, 200k arm64", "187,985 functions"),
        ],
    },
    Group {
        head: "Lookup, 4,096 addresses in a call; the Rust one after the other",
        goal: Some(2.0),
        rows: &[
            ("batch lookup of 4096, S", "section S, 2 functions"),
            ("batch lookup of 4096, 20k arm64", "11,030 functions"),
            ("batch lookup of 4096, 20k x86_64", "19,884 functions"),
            (
                "batch lookup of 4096, 20k x86_64 regular",
                "19,884, in regular pages",
            ),
            ("batch lookup of 4096, 200k arm64", "187,985 functions"),
        ],
    },
    Group {
        head: "Iteration, by blocks; the Rust by its iterator",
        goal: Some(2.0),
        rows: &[
            ("iteration by blocks, S", "section S, 2 functions"),
            ("iteration by blocks, 20k x86_64", "19,884 functions"),
            ("iteration by blocks, 200k arm64", "187,985 functions"),
        ],
    },
    Group {
        head: "Rule or step of a word; the Rust has neither, and only decodes the word",
        goal: None,
        rows: &[
            ("x86_64 rule / decoding, mixed", "x86_64 rule"),
            ("x86_64 step / decoding, mixed", "x86_64 step"),
            ("arm64 rule / decoding, mixed", "arm64 rule"),
            ("arm64 step / decoding, mixed", "arm64 step"),
        ],
    },
    Group {
        head: "Lookup and step in a call; the Rust looks up, and only decodes the word",
        goal: None,
        rows: &[
            ("unwind x86_64, 20k x86_64", "x86_64, 19,884 functions"),
            ("unwind arm64, 200k arm64", "arm64, 187,985 functions"),
        ],
    },
];

impl Group {
    /// Its rows with their names in the picture, as far as there are times for them.
    pub fn find<'a>(&self, rows: &'a [Row]) -> Vec<(&'static str, &'a Row)> {
        let find = |&(in_table, name)| {
            let row = rows.iter().find(|row| row.name == in_table)?;
            Some((name, row))
        };
        self.rows.iter().filter_map(find).collect()
    }
}

/// Whether a row of the table is in a group.
pub fn matters(name: &str) -> bool {
    let mut rows = GROUPS.iter().flat_map(|group| group.rows);
    rows.any(|&(in_table, _)| in_table == name)
}
