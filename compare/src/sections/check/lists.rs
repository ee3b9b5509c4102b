//! The calls that take the lists' places, given any places.

use super::Checks;
use crate::ffi::section::{self as ours, Cursor, Lists};
use crate::model::{self, Refusal, Section};
use crate::random::Random;
use crate::sections::case::Case;
use crate::sections::opened::Opened;
use crate::sections::questions;
use std::fmt::Display;

/// Numbers lent, and how many of them as room.
const LENT: usize = 10;
const ROOM: usize = 8;

/// A section with places that aren't its header's.
struct Given<'a> {
    case: &'a Case<'a>,
    section: &'a [u8],
    lists: Lists,
    model: Result<Section<'a>, Refusal>,
}

impl Given<'_> {
    fn asked(&self, what: impl Display) -> String {
        let question = format_args!("{what} with {:?}", self.lists);
        self.case.asked(question)
    }
}

impl Checks {
    pub(super) fn lists(&mut self, opened: &Opened, random: &mut Random) {
        for lists in questions::lists(&opened.listed, random) {
            let given = Given {
                case: opened.case,
                section: opened.section,
                lists,
                model: Section::with_lists(opened.section, lists),
            };
            if !self.range_with(&given) {
                continue;
            }
            self.lookup_with(&given, random.next());
            self.lookup_with(&given, middle(&given.model));
            let any = questions::cursors(&given.model, random)[0];
            self.steps_with(&given, (0, 0));
            self.steps_with(&given, any);
        }
    }

    /// Says whether ours is the model's answer; see `section`.
    fn range_with(&mut self, given: &Given) -> bool {
        self.lists.check(
            || given.asked("address range"),
            ours::address_range_in(given.section, given.lists),
            model::address_range(&given.model),
        )
    }

    fn lookup_with(&mut self, given: &Given, address: u32) {
        let input = || given.asked(format_args!("lookup {address:#x}"));
        let answer = ours::lookup_in(given.section, given.lists, address);
        let model = model::lookup(&given.model, address);
        self.lists.check(input, answer, model);
        self.place(input, &given.model, answer, |cursor| {
            ours::next_in(given.section, given.lists, cursor)
        });
    }

    fn steps_with(&mut self, given: &Given, cursor: Cursor) {
        self.lists.check(
            || given.asked(format_args!("next {cursor:?}")),
            ours::next_in(given.section, given.lists, cursor),
            model::next(&given.model, cursor),
        );
        let (mut list, mut theirs) = ([7; LENT], [7; LENT]);
        let answer = ours::fill_in(given.section, given.lists, cursor, &mut list[..ROOM]);
        let model = model::fill(&given.model, cursor, &mut theirs[..ROOM]);
        self.lists.check(
            || given.asked(format_args!("fill {ROOM} from {cursor:?}")),
            (answer, list),
            (model, theirs),
        );
    }
}

/// An address in the midst of what the lists cover.
fn middle(section: &Result<Section, Refusal>) -> u32 {
    let (start, end) = section.as_ref().map_or((0, 0), Section::address_range);
    start.wrapping_add(end.wrapping_sub(start) / 2)
}
