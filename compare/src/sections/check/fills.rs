//! Lists filled with functions, and what lies after them.

use super::Checks;
use crate::ffi::section::{self as ours, Cursor, FillAnswer};
use crate::model;
use crate::random::Random;
use crate::sections::opened::Opened;
use crate::sections::questions;

/// Rooms of lists that are filled, besides one that has room for all.
const ROOMS: [usize; 6] = [0, 1, 2, 3, 7, 30];
/// Numbers after the room, which must stay too.
const AFTER: usize = 4;

impl Checks {
    /// Through the whole section with each room, and once from each of some cursors.
    pub(super) fn fills(&mut self, opened: &Opened, functions: usize, random: &mut Random) {
        let all = 3 * functions + 5;
        for room in ROOMS.into_iter().chain([all]) {
            let (mut cursor, mut before) = ((0, 0), None);
            // A cursor that stays is at the end, has no room or is refused.
            while before != Some(cursor) {
                before = Some(cursor);
                cursor = self.fill(opened, cursor, room);
            }
        }
        for cursor in questions::cursors(&opened.listed, random) {
            let room = random.below(20) as usize;
            self.fill(opened, cursor, room);
        }
    }

    /// One list by each of the two functions; gives the model's cursor.
    fn fill(&mut self, opened: &Opened, cursor: Cursor, room: usize) -> Cursor {
        let question = format_args!("fill {room} from {cursor:?}");
        let input = || opened.case.asked(question);
        let mut check = |section, fill: &dyn Fn(&mut [u32]) -> FillAnswer| {
            let mut list: Vec<u32> = (0..(room + AFTER) as u32).map(|i| !i).collect();
            let mut theirs = list.clone();
            let model = model::fill(section, cursor, &mut theirs[..room]);
            let answer = fill(&mut list[..room]);
            let [number, their_number] = first_different(&list, &theirs);
            self.fill
                .check(input, (answer, number), (model, their_number));
            (model.page, model.index)
        };
        if opened.listed.is_ok() {
            check(&opened.listed, &|list| {
                ours::fill_in(opened.section, opened.lists, cursor, list)
            });
        }
        check(&opened.model, &|list| {
            ours::fill(opened.section, cursor, list)
        })
    }
}

/// The first place where two lists differ, with its number in each.
fn first_different(list: &[u32], other: &[u32]) -> [Option<(usize, u32)>; 2] {
    let place = (0..list.len()).find(|&i| list[i] != other[i]);
    [list, other].map(|list| place.map(|i| (i, list[i])))
}
