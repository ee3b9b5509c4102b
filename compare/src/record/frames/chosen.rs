//! The cases that are recorded.

use crate::ffi::frame::Step;
use crate::frames::case::{returned, Case};
use crate::frames::machine::Machine;
use crate::frames::real::{Executed, Told};
use crate::frames::steps;
use crate::record::chosen::spread;
use std::collections::BTreeMap;

/// A case and its answer.
pub type Recorded<const N: usize> = (Case<N>, Step<N>);

/// Bytes of a window, at most.
const SHORT: usize = 256;
/// Cases for each number of a refusal.
const REFUSED: usize = 4;
/// Random cases that those are taken from.
const DRAWN: usize = 20_000;

pub fn is_short<const N: usize>((case, _): &Recorded<N>) -> bool {
    case.bytes.len() <= SHORT
}

/// A few cases of each refusal, most with a window around the frame.
pub fn refused<const N: usize>(machine: &Machine<N>) -> Vec<Recorded<N>> {
    let mut by_refusal: BTreeMap<u32, Vec<Recorded<N>>> = BTreeMap::new();
    let drawn = steps::cases(machine).take(DRAWN);
    let answered = drawn.map(|case| (case.clone(), case.model(machine)));
    for recorded in answered.filter(is_short) {
        let (_, answer) = recorded;
        let group = by_refusal.entry(answer.refusal).or_default();
        if answer.refusal != 0 && group.len() < REFUSED {
            group.push(recorded);
        }
    }
    by_refusal.into_values().flatten().collect()
}

/// At most so many real frames of each kind, spread over the words that docs/FORMAT.md, 9, covers.
pub fn real<const N: usize>(frames: &[Executed<N>], kinds: &[(u32, usize)]) -> Vec<Recorded<N>> {
    let all = frames.iter().filter_map(recorded).filter(is_short);
    let by_word: BTreeMap<u32, Recorded<N>> = all.map(|one| (one.0.word, one)).collect();
    let of_kind = |&(kind, count): &(u32, usize)| {
        let words = by_word.iter().filter(|(word, _)| **word >> 24 & 15 == kind);
        let found: Vec<_> = words.map(|(_, recorded)| recorded).collect();
        spread(&found, count)
    };
    kinds.iter().flat_map(of_kind).cloned().collect()
}

/// What the processor recorded, or the refusal.
fn recorded<const N: usize>(frame: &Executed<N>) -> Option<Recorded<N>> {
    let answer = match frame.told {
        Told::Caller(caller) => returned(caller),
        Told::Indirect => frame.case.refused(25, 0),
        Told::Refused(refusal, value) => frame.case.refused(refusal, value),
        Told::Differs(..) => return None,
    };
    Some((frame.case.clone(), answer))
}
