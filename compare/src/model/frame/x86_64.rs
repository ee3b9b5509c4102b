//! x86_64's words.

use super::arrangements::numbered;
use super::named::{fields, Named};
use super::{bits, Frame, Refused, ReturnAddress};

/// rbp's place among the preserved registers; each of the others stands one before its number.
pub const RBP: usize = 5;

pub fn frame(word: u32) -> Result<Frame<6>, Refused> {
    let eights = 8 * i128::from(bits(word, 16, 23));
    let list = || numbered(bits(word, 10, 12), bits(word, 0, 9)).ok_or((23, 0));
    match bits(word, 24, 27) {
        0 => Err((20, 0)),
        1 => frame_based(eights, fields(word)),
        2 => immediate(eights, list()?),
        3 => list().and(Err((25, 0))),
        4 => Err((21, bits(word, 0, 23))),
        kind => Err((22, kind)),
    }
}

/// Field k is stored at CFA − 16 − offset + 8k. rbp has its own slot, and no field names it.
pub fn frame_based(offset: i128, fields: [Named; 5]) -> Result<Frame<6>, Refused> {
    let mut below = [None; 6];
    for (k, field) in (0..).zip(fields) {
        match field {
            Named::Absent => {}
            Named::Register(register @ 1..=5) if 8 * k < offset => {
                let before = below[register - 1].replace(16 + offset - 8 * k);
                if before.is_some() {
                    return Err((24, 0));
                }
            }
            Named::Register(_) | Named::Unknown(_) => return Err((24, 0)),
        }
    }
    below[RBP] = Some(16);
    Ok(Frame {
        anchor: Some(RBP),
        distance: 16,
        below,
        return_address: ReturnAddress::Slot(8),
    })
}

/// The last register of the list lies at CFA − 16, the others below it.
pub fn immediate(size: i128, list: &[u8]) -> Result<Frame<6>, Refused> {
    if size < 8 + 8 * list.len() as i128 {
        return Err((24, 0));
    }
    let mut below = [None; 6];
    for (pushed, &register) in (0..).zip(list.iter().rev()) {
        below[usize::from(register) - 1] = Some(16 + 8 * pushed);
    }
    Ok(Frame {
        anchor: None,
        distance: size,
        below,
        return_address: ReturnAddress::Slot(8),
    })
}
