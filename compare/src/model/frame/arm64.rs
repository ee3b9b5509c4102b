//! arm64's words.

use super::{bits, Frame, Refused, ReturnAddress};

/// Places among the preserved registers.
pub const X29: usize = 10;
pub const X30: usize = 11;

/// The lower register of each pair, x19 first and d14 last; the other one follows it.
pub const PAIRS: [usize; 9] = [0, 2, 4, 6, 8, 12, 14, 16, 18];
/// The bit of each pair in a frame-based word.
pub const PAIR_BITS: [u32; 9] = [0, 1, 2, 3, 4, 8, 9, 10, 11];

pub fn frame(word: u32) -> Result<Frame<20>, Refused> {
    match bits(word, 24, 27) {
        0 => Err((20, 0)),
        2 => Ok(frameless(16 * i128::from(bits(word, 12, 23)))),
        3 => Err((21, bits(word, 0, 23))),
        4 => Ok(frame_based(PAIR_BITS.map(|bit| bits(word, bit, bit) == 1))),
        kind => Err((22, kind)),
    }
}

pub fn frameless(size: i128) -> Frame<20> {
    Frame {
        anchor: None,
        distance: size,
        below: [None; 20],
        return_address: ReturnAddress::Register(X30),
    }
}

/// Pairs in their order, downwards from CFA − 24, lower register first.
pub fn frame_based(pairs: [bool; 9]) -> Frame<20> {
    let mut below = [None; 20];
    below[X30] = Some(8);
    below[X29] = Some(16);
    let listed = PAIRS.into_iter().zip(pairs).filter(|&(_, listed)| listed);
    let registers = listed.flat_map(|(lower, _)| [lower, lower + 1]);
    for (slot, register) in (0..).zip(registers) {
        below[register] = Some(24 + 8 * slot);
    }
    Frame {
        anchor: Some(X29),
        distance: 16,
        below,
        return_address: ReturnAddress::Slot(8),
    }
}
