//! Iteration, with a call into the library for each function: blocks are quicker, but don't tell
//! where a function came from.

#![forbid(unsafe_code)]

use crate::error::Error;
use crate::ffi::{self, Lists};
use crate::unwind_info::{Function, Origin};

/// Goes through the functions of a section, page after page.
///
/// It holds where it stands, and allocates nothing.
pub struct FunctionIter<'a> {
    data: &'a [u8],
    lists: Lists,
    /// A page, and an index in it.
    cursor: (u32, u32),
}

impl<'a> FunctionIter<'a> {
    pub(crate) fn new(data: &'a [u8], lists: Lists, cursor: (u32, u32)) -> Self {
        FunctionIter {
            data,
            lists,
            cursor,
        }
    }

    /// The next function; `None` at the end, and ever after.
    ///
    /// An error does not end the iteration: the next call goes on behind what was refused. That is
    /// the next page after 4 to 11, and the next function after 13 and 14. So a caller who wants
    /// what is whole in a broken section goes on, and one who doesn't leaves with `?`.
    // Laid into its caller, which then takes the fields from the library's answer: 17 ns for 23.
    #[allow(clippy::should_implement_trait)]
    #[inline]
    pub fn next(&mut self) -> Result<Option<Function>, Error> {
        let (page, index) = self.cursor;
        let answer = ffi::next_in(self.data, self.lists, page, index);
        self.cursor = (answer.page, answer.index);
        match answer.outcome {
            0 => Ok(None),
            1 => Ok(Some(Function {
                start_address: answer.start,
                end_address: answer.end,
                opcode: answer.opcode,
                page: answer.function_page,
                index: answer.function_index,
                origin: Origin::from_number(answer.origin),
            })),
            _ => Err(Error::from_number(answer.refusal.into())),
        }
    }
}

#[cfg(test)]
mod tests {
    use super::FunctionIter;
    use crate::ffi;
    use crate::inputs::{damage, real_sections, s, Random};
    use crate::{is_well_formed, Error, Origin, ReadError, UnwindInfo};

    /// Damaged copies of each small section.
    const COPIES: usize = 100;
    const SMALL: usize = 5_000;
    /// Functions of a block.
    const BLOCK: usize = 64;

    /// What was met along the way.
    #[derive(Default)]
    struct Met {
        functions: usize,
        refusals: usize,
        /// Functions that were found, and are refused at their cursor.
        without_locals: usize,
        /// The longest run of functions without a refusal.
        longest: usize,
    }

    impl Met {
        /// Holds the iterator to the library's blocks, to the end and beyond.
        fn compare(&mut self, section: &[u8]) {
            let info = match UnwindInfo::parse(section) {
                Ok(info) => info,
                Err(_) => return,
            };
            let mut functions = info.functions();
            let (mut block, mut page, mut index, mut run) = ([0; 3 * BLOCK], 0, 0, 0);
            loop {
                let filled = ffi::fill_in(section, info.lists(), page, index, &mut block);
                for expected in block.chunks_exact(3).take(filled.functions) {
                    self.function(&mut functions, expected);
                }
                run += filled.functions;
                self.longest = self.longest.max(run);
                match filled.outcome {
                    0 => break,
                    1 => (),
                    _ => {
                        let error = Error::from_number(filled.refusal.into());
                        assert_eq!(functions.next(), Err(error), "page {page}, index {index}");
                        self.refusals += 1;
                        run = 0;
                    }
                }
                page = filled.page;
                index = filled.index;
            }
            assert_eq!([functions.next(), functions.next()], [Ok(None), Ok(None)]);
            self.look_up(&info);
        }

        /// The next one has these numbers, and stood where the cursor was.
        fn function(&mut self, functions: &mut FunctionIter, expected: &[u32]) {
            let function = functions.next().unwrap().unwrap();
            let (start, end) = (function.start_address, function.end_address);
            assert_eq!([start, end, function.opcode], expected);
            let after = (function.page, function.index + 1);
            assert_eq!(functions.cursor, after);
            self.functions += 1;
        }

        /// A function that is found stands at its own cursor, unless the page's local opcodes lie
        /// outside and its own is a global one.
        fn look_up(&mut self, info: &UnwindInfo) {
            let std::ops::Range { start, end } = info.address_range();
            let middle = start.wrapping_add(end.wrapping_sub(start) / 2);
            for address in [start, middle, end.wrapping_sub(1)] {
                let found = match info.lookup(address) {
                    Ok(Some(found)) => found,
                    _ => continue,
                };
                match info.functions_from(found.page, found.index).next() {
                    Ok(function) => assert_eq!(function, Some(found)),
                    Err(error) => {
                        assert_eq!(error, Error::ReadError(ReadError::LocalOpcodes));
                        assert_eq!(found.origin, Origin::Global);
                        self.without_locals += 1;
                    }
                }
            }
        }
    }

    /// In a well-formed section lookups find what the iteration gives, in all fields.
    fn agree(section: &[u8]) {
        let info = UnwindInfo::parse(section).unwrap();
        let mut functions = info.functions();
        while let Some(function) = functions.next().unwrap() {
            for address in [function.start_address, function.end_address - 1] {
                assert_eq!(info.lookup(address).as_ref(), Ok(&Some(function.clone())));
            }
        }
    }

    #[test]
    fn single_calls_give_what_blocks_give_on_s_and_beside_it() {
        let mut met = Met::default();
        let s = s();
        for length in 0..=s.len() {
            met.compare(&s[..length]);
        }
        for place in 0..s.len() {
            for change in 1..=255 {
                let mut section = s.clone();
                section[place] ^= change;
                met.compare(&section);
                if is_well_formed(&section) {
                    agree(&section);
                }
            }
        }
        assert!(met.functions > 10_000 && met.refusals > 1_000 && met.without_locals > 10);
    }

    #[test]
    fn single_calls_give_what_blocks_give_on_real_sections_and_damaged_ones() {
        let (mut met, mut random) = (Met::default(), Random::new(1));
        let test = "single_calls_give_what_blocks_give_on_real_sections_and_damaged_ones";
        let sections = match real_sections(test) {
            Some(sections) => sections,
            None => return,
        };
        for (_, section) in &sections {
            met.compare(section);
            if is_well_formed(section) {
                agree(section);
            }
            let copies = if section.len() < SMALL { COPIES } else { 1 };
            for _ in 0..copies {
                let mut section = section.clone();
                damage(&mut random, &mut section);
                met.compare(&section);
            }
        }
        // Blocks are filled, and refusals fall between them.
        assert!(met.longest > BLOCK && met.refusals > 100);
    }
}
