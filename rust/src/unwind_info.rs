//! A section: its functions, lookups in it, and the combined call.

#![forbid(unsafe_code)]

use crate::error::{Error, UnwindError};
use crate::ffi::{self, Lists, LookupAnswer, UnwindAnswer};
use crate::frames::{RegistersArm64, RegistersX86_64, Unwound};
use crate::function_iter::FunctionIter;

/// A section that was parsed: its bytes, and where its two lists lie.
pub struct UnwindInfo<'a> {
    data: &'a [u8],
    lists: Lists,
}

/// What a section says of one function.
#[derive(Clone, Debug, PartialEq, Eq, Hash)]
pub struct Function {
    /// Where the function starts.
    pub start_address: u32,
    /// Where it ends: the next function's start, or the next page's first address.
    pub end_address: u32,
    /// The word that describes its frame; [`opcodes`](crate::opcodes) and
    /// [`frames`](crate::frames) read it.
    pub opcode: u32,
    /// The number of the page that lists it.
    pub page: u32,
    /// Its index in that page, below 65,536.
    pub index: u32,
    /// Where its opcode stands.
    pub origin: Origin,
}

/// Where the section has a function's opcode.
///
/// ```
/// # let section = std::fs::read(concat!(env!("CARGO_MANIFEST_DIR"), "/../sections/s.bin"))?;
/// use macho_unwind_info::{Origin, UnwindInfo};
///
/// let function = UnwindInfo::parse(&section)?.lookup(0x1040)?.unwrap();
/// assert_eq!((function.page, function.index), (0, 1));
/// assert_eq!(function.origin, Origin::Local);
/// # Ok::<(), Box<dyn std::error::Error>>(())
/// ```
#[derive(Clone, Copy, Debug, PartialEq, Eq, Hash)]
pub enum Origin {
    /// In the function's own entry, which is a regular page's.
    Regular,
    /// In the section's list of global opcodes.
    Global,
    /// In the page's list of local opcodes.
    Local,
}

impl Origin {
    pub(crate) fn from_number(number: u8) -> Origin {
        match number {
            1 => Origin::Regular,
            2 => Origin::Global,
            3 => Origin::Local,
            _ => panic!("origin {number}: libbrasspurse.a is of another release than this crate"),
        }
    }
}

impl<'a> UnwindInfo<'a> {
    /// The view of a section's bytes, at any alignment. Refuses with 1, 15, 2 or 3; what is wrong
    /// behind the two lists is found by the calls that meet it.
    pub fn parse(data: &'a [u8]) -> Result<Self, Error> {
        let answer = ffi::parse(data);
        match answer.refusal {
            0 => Ok(UnwindInfo {
                data,
                lists: answer.lists,
            }),
            refusal => Err(Error::from_number(refusal)),
        }
    }

    /// All functions, page after page.
    pub fn functions(&self) -> FunctionIter<'a> {
        self.functions_from(0, 0)
    }

    /// The functions from a place on; with page and index of a [`Function`], from that one on.
    ///
    /// Any two numbers may be passed: an index past a page's functions means the next page's first,
    /// and a page at or past the last one means the end. A lookup that finds a global opcode does
    /// not ask for the page's local ones, and this does: where they lie outside the section, the
    /// first answer is an error, [`ReadError::LocalOpcodes`](crate::ReadError::LocalOpcodes).
    ///
    /// ```
    /// # let section = std::fs::read(concat!(env!("CARGO_MANIFEST_DIR"), "/../sections/s.bin"))?;
    /// let info = macho_unwind_info::UnwindInfo::parse(&section)?;
    /// let found = info.lookup(0x1010)?.unwrap();
    /// let mut functions = info.functions_from(found.page, found.index);
    /// assert_eq!(functions.next()?, Some(found));
    /// assert_eq!(functions.next()?.unwrap().start_address, 0x1040);
    /// # Ok::<(), Box<dyn std::error::Error>>(())
    /// ```
    pub fn functions_from(&self, page: u32, index: u32) -> FunctionIter<'a> {
        FunctionIter::new(self.data, self.lists, (page, index))
    }

    /// From the first page's first address to the last page's; `0..0` if there are no pages.
    pub fn address_range(&self) -> core::ops::Range<u32> {
        let range = ffi::address_range_in(self.data, self.lists);
        range.start..range.end
    }

    /// The function that covers an address, counted from the image's start; `None` where there is
    /// none. Refuses with 4 to 14. In a section that is not well formed it may be a function that
    /// does not cover the address: compare with its `start_address` and `end_address`.
    pub fn lookup(&self, pc: u32) -> Result<Option<Function>, Error> {
        self.lookup_with_probes(pc).function()
    }

    /// The same, with the number of entries that the two searches probed.
    pub fn lookup_with_probes(&self, pc: u32) -> LookupAnswer {
        ffi::lookup_in(self.data, self.lists, pc)
    }

    /// Looks many addresses up in one call. Answers them in order, as many as there is room for,
    /// each as [`lookup_with_probes`](Self::lookup_with_probes) does, and gives the part of
    /// `answers` that was written; the rest is as it was.
    ///
    /// ```
    /// # let section = std::fs::read(concat!(env!("CARGO_MANIFEST_DIR"), "/../sections/s.bin"))?;
    /// use macho_unwind_info::{LookupAnswer, UnwindInfo};
    ///
    /// let info = UnwindInfo::parse(&section)?;
    /// let addresses = [0x103f, 0x1040, 0x1100];
    /// let mut answers = [LookupAnswer::default(); 3];
    /// let mut starts = Vec::new();
    /// for answer in info.lookup_batch(&addresses, &mut answers) {
    ///     starts.push(answer.function()?.map(|function| function.start_address));
    /// }
    /// assert_eq!(starts, [Some(0x1000), Some(0x1040), None]);
    /// # Ok::<(), Box<dyn std::error::Error>>(())
    /// ```
    pub fn lookup_batch<'b>(
        &self,
        addresses: &[u32],
        answers: &'b mut [LookupAnswer],
    ) -> &'b [LookupAnswer] {
        let written = ffi::lookup_batch(self.data, addresses, answers);
        &answers[..written]
    }

    /// Looks an address up and undoes one frame of x86_64 by the word found. `window` is the stack
    /// from the address `base` on. Refuses with the lookup's 4 to 14, unchanged, with 20 where the
    /// lookup says none, and with the step's 20 to 27.
    ///
    /// The address is counted from the image's start; `rip` is not looked at. For a return address
    /// take one less: a call may be its function's last instruction. [`frames`](crate::frames) has
    /// an example.
    pub fn unwind_x86_64(
        &self,
        address: u32,
        registers: RegistersX86_64,
        base: u64,
        window: &[u8],
    ) -> Result<Unwound<RegistersX86_64>, UnwindError> {
        unwound(ffi::unwind_x86_64(
            self.data, address, registers, base, window,
        ))
    }

    /// The same on arm64, where 23 to 25 don't arise.
    ///
    /// In frames of real frameless functions that save registers, some of the caller's registers
    /// come out wrong and nothing is refused; `pc` and `sp` are right. See
    /// [`frames`](crate::frames#where-real-code-differs).
    pub fn unwind_arm64(
        &self,
        address: u32,
        registers: RegistersArm64,
        base: u64,
        window: &[u8],
    ) -> Result<Unwound<RegistersArm64>, UnwindError> {
        unwound(ffi::unwind_arm64(
            self.data, address, registers, base, window,
        ))
    }
}

#[cfg(test)]
impl UnwindInfo<'_> {
    pub(crate) fn lists(&self) -> Lists {
        self.lists
    }
}

fn unwound<R>(answer: UnwindAnswer<R>) -> Result<Unwound<R>, UnwindError> {
    let UnwindAnswer {
        refusal,
        value,
        probes,
        registers,
    } = answer;
    match refusal {
        0 => Ok(Unwound { registers, probes }),
        refusal => Err(UnwindError::from_number(refusal, value, probes)),
    }
}

impl LookupAnswer {
    /// What [`UnwindInfo::lookup`] gives.
    pub fn function(&self) -> Result<Option<Function>, Error> {
        match self.outcome {
            0 => Ok(None),
            1 => Ok(Some(Function {
                start_address: self.start,
                end_address: self.end,
                opcode: self.opcode,
                page: self.page,
                index: self.index,
                origin: Origin::from_number(self.origin),
            })),
            _ => Err(Error::from_number(self.refusal.into())),
        }
    }

    /// The entries that were probed: at most the bit length of the page count, and that of the
    /// page's function count if one was searched.
    pub fn probes(&self) -> u32 {
        self.probes.into()
    }
}

/// Whether a section is well formed: it parses; first addresses rise; each page but the last
/// opens, begins with a function at its first address, and has rising starts below the next page's
/// first address; every opcode index names an opcode. Then no lookup and no iteration refuses.
pub fn is_well_formed(section: &[u8]) -> bool {
    ffi::is_well_formed(section)
}
