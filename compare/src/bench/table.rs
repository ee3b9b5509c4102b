//! The table of times, in Markdown.

use super::time::{called, each};
use std::cell::RefCell;
use std::fmt::{Display, Formatter, Result};

/// Each side is measured this often, in turns, and its best time counts.
const ROUNDS: usize = 25;
/// Inputs that have their best time for themselves: few, so that other programs seldom come
/// between.
pub const PART: usize = 2_048;

const HEAD: &str = "\
- ours: a call into the library through its C interface.
- called: the Rust's own function behind a call that is never inlined.
- free: the Rust's own function in the measuring loop, inlined or not as the compiler sees fit.
- words, permutations, steps, rules: 32,768 inputs or more in random order.
- lookup, iteration: both sides have parsed the section before.
- batch lookup: ours answers so many addresses in one call, which parses the section once; the
  Rust looks up one at a time, parsed before. The time is that of one address.
- step, rule: the Rust has none, and decodes the same word.
- unwind: ours parses, looks up and steps in one call, always out of a sound frame; the Rust looks
  up, parsed before, and decodes the word. Sections 'with words' have the functions of another
  machine's in compressed pages, with sound words in place of its own.

| | ours | 0.5.0 called | 0.5.0 free |
|---|---|---|---|";

/// Nanoseconds per answer.
pub struct Row {
    pub name: String,
    pub ours: f64,
    pub called: Beside,
    pub free: Beside,
}

/// The Rust's time, and that time / ours.
pub struct Beside {
    pub time: f64,
    pub ratio: f64,
}

/// The rows that somebody wants, printed as they are measured.
pub struct Table<'a> {
    wanted: &'a dyn Fn(&str) -> bool,
    rows: RefCell<Vec<Row>>,
}

/// Ours, the Rust called, the Rust free: the time of a part of the inputs.
pub type Sides<'a> = [&'a dyn Fn(usize) -> f64; 3];

impl<'a> Table<'a> {
    /// With its head printed.
    pub fn new(wanted: &'a dyn Fn(&str) -> bool) -> Self {
        println!(
            "Nanoseconds per answer, best of {ROUNDS} rounds, the sides in turns; in brackets the \
             Rust's time / ours."
        );
        println!("{HEAD}");
        Table {
            wanted,
            rows: RefCell::default(),
        }
    }

    pub fn rows(self) -> Vec<Row> {
        self.rows.into_inner()
    }

    /// A row on which each side takes one input to one answer. `rust` makes its side ready.
    pub fn row<I: Copy, A, B, R: Fn(I) -> B>(
        &self,
        name: &str,
        inputs: &[I],
        ours: impl Fn(I) -> A,
        rust: impl Fn() -> R,
    ) {
        let parts: Vec<&[I]> = inputs.chunks(PART).collect();
        self.measure(
            name,
            parts.len(),
            [
                &|part| each(parts[part], &ours),
                &|part| {
                    let rust = rust();
                    each(parts[part], |input| called(&rust, input))
                },
                &|part| each(parts[part], rust()),
            ],
        );
    }

    /// A row by its parts. Each side takes all of them before the next does, so that none finds
    /// in the cache what another has just read.
    pub fn measure(&self, name: &str, parts: usize, sides: Sides) {
        if !(self.wanted)(name) {
            return;
        }
        let mut best = vec![[f64::INFINITY; 3]; parts];
        for _ in 0..ROUNDS {
            for (side, time) in sides.iter().enumerate() {
                for (part, best) in best.iter_mut().enumerate() {
                    best[side] = best[side].min(time(part));
                }
            }
        }
        let mean = |side: usize| best.iter().map(|best| best[side]).sum::<f64>() / parts as f64;
        let ours = mean(0);
        let row = Row {
            name: name.to_owned(),
            ours,
            called: Beside::new(mean(1), ours),
            free: Beside::new(mean(2), ours),
        };
        println!("{row}");
        self.rows.borrow_mut().push(row);
    }
}

impl Beside {
    pub fn new(time: f64, ours: f64) -> Self {
        let ratio = time / ours;
        Beside { time, ratio }
    }
}

impl Display for Row {
    fn fmt(&self, f: &mut Formatter) -> Result {
        let Row { name, ours, .. } = self;
        let (called, free) = (&self.called, &self.free);
        write!(f, "| {name} | {ours:.1} | {called} | {free} |")
    }
}

impl Display for Beside {
    fn fmt(&self, f: &mut Formatter) -> Result {
        write!(f, "{:.1} ({:.2})", self.time, self.ratio)
    }
}
