//! Counting answers, and saying which differ.

use std::fmt::Debug;
use std::process::ExitCode;

/// Differing inputs of a group that are printed.
const SHOWN: usize = 5;

/// One group of answers.
pub struct Tally {
    name: String,
    compared: u64,
    different: u64,
    first: Vec<String>,
}

impl Tally {
    pub fn new(name: impl Into<String>) -> Self {
        let name = name.into();
        Tally {
            name,
            compared: 0,
            different: 0,
            first: Vec::new(),
        }
    }

    /// Counts one answer and says whether it is the same; `input` is asked for only where the two
    /// differ.
    pub fn check<A: PartialEq + Debug>(
        &mut self,
        input: impl FnOnce() -> String,
        ours: A,
        theirs: A,
    ) -> bool {
        self.compared += 1;
        if ours == theirs {
            return true;
        }
        self.different += 1;
        if self.first.len() < SHOWN {
            self.first
                .push(format!("{}: ours {ours:?}, theirs {theirs:?}", input()));
        }
        false
    }

    fn print(&self, word: &str) {
        println!(
            "{:<44} {:>10} compared {:>9} {word}",
            self.name, self.compared, self.different
        );
        for line in &self.first {
            println!("    {line}");
        }
    }
}

/// All groups of a run.
#[derive(Default)]
pub struct Report {
    compared: u64,
    different: u64,
    as_listed: u64,
}

impl Report {
    pub fn add(&mut self, group: Tally) {
        group.print("different");
        self.compared += group.compared;
        self.different += group.different;
    }

    /// A difference that docs/DIFFERENCES.md lists: shown by its first input, and counted apart.
    pub fn add_listed(&mut self, mut group: Tally) {
        group.first.truncate(1);
        group.print("differ as listed");
        self.as_listed += group.different;
    }

    /// The last lines of a run.
    pub fn end(self) -> ExitCode {
        if self.as_listed > 0 {
            println!(
                "{} more differ as docs/DIFFERENCES.md lists them",
                self.as_listed
            );
        }
        println!(
            "{} answers compared, {} different",
            self.compared, self.different
        );
        if self.different > 0 {
            ExitCode::FAILURE
        } else {
            ExitCode::SUCCESS
        }
    }
}
