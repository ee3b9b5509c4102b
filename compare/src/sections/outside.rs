//! Answers outside the domain of the comparison, counted by their reason. On the domain the header's
//! version is 1, no function is refused with 13 or 14, and the keys that a lookup searches rise
//! strictly.

use super::case::{hex, Case};
use crate::oracle::section::{Told, BUILDS};
use std::collections::BTreeMap;
use std::fmt::{Debug, Display};

/// Why an answer lies outside the domain.
#[derive(Clone, Copy, PartialEq, Eq, PartialOrd, Ord)]
pub enum Reason {
    Version,
    KeysDoNotRise,
    Refusal13,
    Refusal14,
}

impl Reason {
    /// Of a question to a build by its place in `BUILDS`; none on the domain. `refusal` is the
    /// model's, never the Rust's.
    pub fn of(build: usize, keys_rise: bool, refusal: u32) -> Option<Reason> {
        match refusal {
            15 => Some(Reason::Version),
            13 if !BUILDS[build].checks_sums => Some(Reason::Refusal13),
            _ if !keys_rise => Some(Reason::KeysDoNotRise),
            14 if !BUILDS[build].checks_sums => Some(Reason::Refusal14),
            _ => None,
        }
    }

    fn name(self) -> &'static str {
        match self {
            Reason::Version => "another version",
            Reason::KeysDoNotRise => "keys don't rise",
            Reason::Refusal13 => "13",
            Reason::Refusal14 => "14",
        }
    }

    /// Where keys don't rise, a panic that stands for our refusal is no difference of the search.
    pub fn seen(self, theirs: Told) -> Told {
        match self {
            Reason::KeysDoNotRise => theirs.with_panic_as_refusal(),
            _ => theirs,
        }
    }
}

/// Reason, what was asked, and the build.
pub type Group = (Reason, &'static str, &'static str);

#[derive(Default)]
pub struct Outside(BTreeMap<Group, Seen>);

#[derive(Default)]
struct Seen {
    asked: u64,
    different: u64,
    smallest: Option<Smallest>,
}

struct Smallest {
    section: Vec<u8>,
    difference: String,
}

impl Outside {
    pub fn count<A: PartialEq + Debug>(
        &mut self,
        group: Group,
        (case, question): (&Case, &dyn Display),
        (ours, theirs): (A, A),
    ) {
        let seen = self.0.entry(group).or_default();
        seen.asked += 1;
        if ours == theirs {
            return;
        }
        seen.different += 1;
        let section = case.section();
        if seen.smallest.as_ref().map_or(true, |s| s.is_above(section)) {
            seen.smallest = Some(Smallest {
                section: section.to_vec(),
                difference: format!("{question}: ours {ours:?}, theirs {theirs:?}"),
            });
        }
    }

    pub fn print(&self) {
        println!(
            "outside the domain, where the Rust wraps, panics, searches otherwise or reads another version; not counted:"
        );
        for ((reason, what, build), seen) in &self.0 {
            println!(
                "{:<44} {:>10} asked    {:>9} differ",
                format!("  {what}, {}, {build}", reason.name()),
                seen.asked,
                seen.different
            );
            if let Some(smallest) = &seen.smallest {
                println!(
                    "    smallest, {} bytes: {}",
                    smallest.section.len(),
                    hex(&smallest.section)
                );
                println!("    {}", smallest.difference);
            }
        }
    }
}

impl Smallest {
    /// Fewest bytes first, then by the bytes.
    fn is_above(&self, section: &[u8]) -> bool {
        (section.len(), section) < (self.section.len(), &self.section[..])
    }
}
