//! x86_64's words taken apart, from docs/FORMAT.md, 7, alone.

use super::arrangements::numbered;
use super::bits;
use super::named::fields;
use crate::ffi::OpcodeX86_64;

pub fn parse_x86_64(word: u32) -> OpcodeX86_64 {
    let byte = bits(word, 16, 23);
    let case = |answer, value| OpcodeX86_64 {
        answer,
        value,
        ..OpcodeX86_64::default()
    };
    match bits(word, 24, 27) {
        0 => case(0, 0),
        1 => OpcodeX86_64 {
            fields: bits(word, 0, 14) as u16,
            field_states: states(word),
            ..case(1, 8 * byte)
        },
        kind @ (2 | 3) => match numbered(bits(word, 10, 12), bits(word, 0, 9)) {
            None => case(5, 0),
            Some(list) if kind == 2 => OpcodeX86_64 {
                popped_regs: filled_up(list),
                ..case(2, 8 * byte)
            },
            Some(list) => OpcodeX86_64 {
                stack_adjust_in_bytes: 8 * bits(word, 13, 15) as u8,
                popped_regs: filled_up(list),
                ..case(3, byte)
            },
        },
        4 => case(4, bits(word, 0, 23)),
        kind => case(6, kind),
    }
}

/// Each field's state, at the bits that the field has in the word.
fn states(word: u32) -> u16 {
    let states = fields(word).map(|field| field.told().state as u16);
    (0..).zip(states).map(|(k, state)| state << (3 * k)).sum()
}

/// The list and zeros after it.
fn filled_up(list: &[u8]) -> [u8; 6] {
    let mut six = [0; 6];
    six[..list.len()].copy_from_slice(list);
    six
}
