//! Frames of the Rust's own decoding: the model lays them out, and reads no bit of the word but
//! to leave out what the Rust isn't asked about.

use crate::model::frame::named::Named;
use crate::model::frame::{arm64, x86_64, Frame, Refused};
use crate::oracle::{is_asked_arm64, told_alike_x86_64, Release};

/// None where a 7, which the Rust doesn't tell from 0, is all that keeps a word from being sound.
pub fn x86_64(release: &Release, word: u32) -> Option<Result<Frame<6>, Refused>> {
    let opcode = (release.parse_x86_64)(word);
    let size = i128::from(opcode.value);
    let is_told = told_alike_x86_64(word) == word;
    Some(match opcode.answer {
        0 => Err((20, 0)),
        1 => match x86_64::frame_based(size, opcode.fields.map(field)) {
            Ok(_) if !is_told => return None,
            frame => frame,
        },
        2 => x86_64::immediate(size, &listed(opcode.popped_regs)),
        3 => Err((25, 0)),
        4 => Err((21, opcode.value)),
        5 => Err((23, 0)),
        _ => Err((22, opcode.value)),
    })
}

fn field(register: Option<u8>) -> Named {
    register.map_or(Named::Absent, |number| Named::Register(number.into()))
}

fn listed(registers: [Option<u8>; 6]) -> Vec<u8> {
    registers.into_iter().flatten().collect()
}

/// None where the Rust reads pairs from other bits.
pub fn arm64(release: &Release, word: u32) -> Option<Result<Frame<20>, Refused>> {
    if !is_asked_arm64(word) {
        return None;
    }
    let opcode = (release.parse_arm64)(word);
    let pairs = arm64::PAIR_BITS.map(|bit| opcode.saved_pairs >> bit & 1 == 1);
    Some(match opcode.answer {
        0 => Err((20, 0)),
        1 => Ok(arm64::frameless(opcode.value.into())),
        2 => Err((21, opcode.value)),
        3 => Ok(arm64::frame_based(pairs)),
        _ => Err((22, opcode.value)),
    })
}
