//! The permutation field of a frameless word: which registers were pushed, and in what order.

#![forbid(unsafe_code)]

use crate::error::PermutationError;
use crate::ffi;

/// The registers that a permutation lists, by their numbers from 1 to 6, in the order in which
/// they are popped; zeros follow. Refuses with 23.
///
/// ```
/// use macho_unwind_info::opcodes::{decode_permutation_6, encode_permutation_6};
///
/// assert_eq!(decode_permutation_6(6, 719), Ok([6, 5, 4, 3, 2, 1]));
/// assert_eq!(encode_permutation_6(6, &[6, 5, 4, 3, 2, 1]), Ok(719));
/// assert_eq!(decode_permutation_6(6, 720).unwrap_err().number(), 23);
/// ```
pub fn decode_permutation_6(count: u32, encoding: u32) -> Result<[u8; 6], PermutationError> {
    let answer = ffi::decode_permutation_6(count, encoding);
    match answer.refusal {
        0 => Ok(answer.registers),
        refusal => Err(PermutationError::from_number(refusal)),
    }
}

/// The number of a list: as many distinct registers from 1 to 6 as the count says, then zeros.
/// Refuses any other list, and counts above 6, with 28.
pub fn encode_permutation_6(count: u32, registers: &[u8; 6]) -> Result<u32, PermutationError> {
    let answer = ffi::encode_permutation_6(count, registers);
    match answer.refusal {
        0 => Ok(answer.encoding),
        refusal => Err(PermutationError::from_number(refusal)),
    }
}
