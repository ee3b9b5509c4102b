//! Why there is no answer: every refusal by name, with its number. Numbers are turned into names
//! and back here alone.
//!
//! A text is whole: an error that holds another prints that one's text, and is the chain's end.

#![forbid(unsafe_code)]

use std::fmt::{Display, Formatter, Result};

/// Why a section, or one of its functions, is refused: the numbers 1 to 15.
///
/// The last three are not in the original: its sums wrap, it panics, and it does not look at the
/// version.
#[derive(Clone, Copy, Debug, PartialEq, Eq)]
pub enum Error {
    /// 1 to 4 and 7 to 11: something lies outside the section.
    ReadError(ReadError),
    /// 12: the page that should cover the address has no function at or before it.
    InvalidPageEntryFirstAddress,
    /// 6: a page's kind is unknown.
    InvalidPageKind,
    /// 5: a page before the last has the sentinel's kind.
    UnexpectedSentinelPage,
    /// 13: a function starts or ends above 2^32 - 1.
    AddressTooLarge,
    /// 14: a function's opcode index is past both lists of opcodes.
    LocalIndex,
    /// 15: the header's version is not 1.
    WrongVersion,
}

/// What lies outside the section.
#[derive(Clone, Copy, Debug, PartialEq, Eq)]
pub enum ReadError {
    /// 1: the header.
    Header,
    /// 2: the list of global opcodes.
    GlobalOpcodes,
    /// 3: the list of pages.
    Pages,
    /// 7: a regular page.
    RegularPage,
    /// 8: a regular page's functions.
    RegularPageFunctions,
    /// 9: a compressed page.
    CompressedPage,
    /// 10: a compressed page's functions.
    CompressedPageFunctions,
    /// 11: a compressed page's local opcodes.
    LocalOpcodes,
    /// 4: a page's kind.
    PageKind,
}

/// Why a word has no rule, or there is no step by it: the numbers 20 to 27.
#[derive(Clone, Copy, Debug, PartialEq, Eq)]
pub enum Refusal {
    /// 20: the word is null. In the combined call also: no function covers the address.
    Null,
    /// 21: the frame is described in `__eh_frame`.
    Dwarf {
        /// Where: the word's low 24 bits.
        eh_frame_fde: u32,
    },
    /// 22: the word's kind is unknown.
    UnrecognizedKind(u8),
    /// 23: a frameless word's permutation is none.
    InvalidFrameless,
    /// 24: no prologue leaves the frame that the word describes.
    NotSound,
    /// 25: the frame's size stands in the function's code.
    FramelessIndirect,
    /// 26: the window's end, or the caller's stack pointer, is above 2^64 - 1.
    AboveAddresses,
    /// 27: a slot that has to be read does not lie in the window.
    OutsideWindow,
}

/// Why the combined call gives no caller. Both cases have the entries that the lookup probed.
#[derive(Clone, Copy, Debug, PartialEq, Eq)]
pub enum UnwindError {
    /// The lookup's error, unchanged.
    Lookup {
        /// As [`lookup`](crate::UnwindInfo::lookup) gives it.
        error: Error,
        /// As [`probes`](crate::LookupAnswer::probes) gives them.
        probes: u32,
    },
    /// The step's refusal; [`Refusal::Null`] also where the lookup says none.
    Step {
        /// As a step gives it.
        refusal: Refusal,
        /// As [`probes`](crate::LookupAnswer::probes) gives them.
        probes: u32,
    },
}

/// Why a permutation is not decoded or encoded.
#[derive(Clone, Copy, Debug, PartialEq, Eq)]
pub enum PermutationError {
    /// 23: the count or the number has no registers.
    InvalidEncoding,
    /// 28: the count or the list of registers has no number.
    InvalidList,
}

impl ReadError {
    /// The refusal's number.
    pub fn number(&self) -> u32 {
        match self {
            ReadError::Header => 1,
            ReadError::GlobalOpcodes => 2,
            ReadError::Pages => 3,
            ReadError::PageKind => 4,
            ReadError::RegularPage => 7,
            ReadError::RegularPageFunctions => 8,
            ReadError::CompressedPage => 9,
            ReadError::CompressedPageFunctions => 10,
            ReadError::LocalOpcodes => 11,
        }
    }
}

impl Error {
    /// The refusal's number.
    pub fn number(&self) -> u32 {
        match self {
            Error::ReadError(error) => error.number(),
            Error::UnexpectedSentinelPage => 5,
            Error::InvalidPageKind => 6,
            Error::InvalidPageEntryFirstAddress => 12,
            Error::AddressTooLarge => 13,
            Error::LocalIndex => 14,
            Error::WrongVersion => 15,
        }
    }

    pub(crate) fn from_number(number: u32) -> Error {
        match number {
            1 => ReadError::Header.into(),
            2 => ReadError::GlobalOpcodes.into(),
            3 => ReadError::Pages.into(),
            4 => ReadError::PageKind.into(),
            5 => Error::UnexpectedSentinelPage,
            6 => Error::InvalidPageKind,
            7 => ReadError::RegularPage.into(),
            8 => ReadError::RegularPageFunctions.into(),
            9 => ReadError::CompressedPage.into(),
            10 => ReadError::CompressedPageFunctions.into(),
            11 => ReadError::LocalOpcodes.into(),
            12 => Error::InvalidPageEntryFirstAddress,
            13 => Error::AddressTooLarge,
            14 => Error::LocalIndex,
            15 => Error::WrongVersion,
            _ => unknown(number),
        }
    }
}

impl Refusal {
    /// The refusal's number.
    pub fn number(&self) -> u32 {
        match self {
            Refusal::Null => 20,
            Refusal::Dwarf { .. } => 21,
            Refusal::UnrecognizedKind(_) => 22,
            Refusal::InvalidFrameless => 23,
            Refusal::NotSound => 24,
            Refusal::FramelessIndirect => 25,
            Refusal::AboveAddresses => 26,
            Refusal::OutsideWindow => 27,
        }
    }

    /// What the refusal carries: 21 the word's low 24 bits, 22 its kind, any other 0.
    pub fn value(&self) -> u32 {
        match *self {
            Refusal::Dwarf { eh_frame_fde } => eh_frame_fde,
            Refusal::UnrecognizedKind(kind) => kind.into(),
            _ => 0,
        }
    }

    pub(crate) fn from_number(number: u32, value: u32) -> Refusal {
        match number {
            20 => Refusal::Null,
            21 => Refusal::Dwarf {
                eh_frame_fde: value,
            },
            22 => Refusal::UnrecognizedKind(value as u8),
            23 => Refusal::InvalidFrameless,
            24 => Refusal::NotSound,
            25 => Refusal::FramelessIndirect,
            26 => Refusal::AboveAddresses,
            27 => Refusal::OutsideWindow,
            _ => unknown(number),
        }
    }
}

impl UnwindError {
    /// The refusal's number, 1 to 15 or 20 to 27.
    pub fn number(&self) -> u32 {
        match self {
            UnwindError::Lookup { error, .. } => error.number(),
            UnwindError::Step { refusal, .. } => refusal.number(),
        }
    }

    /// What the refusal carries: 21 the word's low 24 bits, 22 its kind, any other 0.
    pub fn value(&self) -> u32 {
        match self {
            UnwindError::Lookup { .. } => 0,
            UnwindError::Step { refusal, .. } => refusal.value(),
        }
    }

    /// The entries that the lookup probed.
    pub fn probes(&self) -> u32 {
        match *self {
            UnwindError::Lookup { probes, .. } | UnwindError::Step { probes, .. } => probes,
        }
    }

    pub(crate) fn from_number(number: u32, value: u32, probes: u32) -> UnwindError {
        if number < 20 {
            UnwindError::Lookup {
                error: Error::from_number(number),
                probes,
            }
        } else {
            UnwindError::Step {
                refusal: Refusal::from_number(number, value),
                probes,
            }
        }
    }
}

impl PermutationError {
    /// The refusal's number.
    pub fn number(&self) -> u32 {
        match self {
            PermutationError::InvalidEncoding => 23,
            PermutationError::InvalidList => 28,
        }
    }

    pub(crate) fn from_number(number: u32) -> PermutationError {
        match number {
            23 => PermutationError::InvalidEncoding,
            28 => PermutationError::InvalidList,
            _ => unknown(number),
        }
    }
}

/// The library's promises leave no other number.
fn unknown(number: u32) -> ! {
    panic!("refused {number}: libbrasspurse.a is of another release than this crate")
}

impl From<ReadError> for Error {
    fn from(error: ReadError) -> Error {
        Error::ReadError(error)
    }
}

impl Display for ReadError {
    fn fmt(&self, f: &mut Formatter) -> Result {
        let what = match self {
            ReadError::Header => "the header lies",
            ReadError::GlobalOpcodes => "the list of global opcodes lies",
            ReadError::Pages => "the list of pages lies",
            ReadError::PageKind => "a page's kind lies",
            ReadError::RegularPage => "a regular page lies",
            ReadError::RegularPageFunctions => "a regular page's functions lie",
            ReadError::CompressedPage => "a compressed page lies",
            ReadError::CompressedPageFunctions => "a compressed page's functions lie",
            ReadError::LocalOpcodes => "a compressed page's local opcodes lie",
        };
        write!(f, "refused {}: {what} outside the section", self.number())
    }
}

impl Display for Error {
    fn fmt(&self, f: &mut Formatter) -> Result {
        let what = match self {
            Error::ReadError(error) => return error.fmt(f),
            Error::UnexpectedSentinelPage => "a page before the last is a sentinel",
            Error::InvalidPageKind => "a page's kind is unknown",
            Error::InvalidPageEntryFirstAddress => {
                "the page has no function at or before the address"
            }
            Error::AddressTooLarge => "a function's address is above 2^32 - 1",
            Error::LocalIndex => "a function's opcode index names none",
            Error::WrongVersion => "the header's version is not 1",
        };
        write!(f, "refused {}: {what}", self.number())
    }
}

impl Display for Refusal {
    fn fmt(&self, f: &mut Formatter) -> Result {
        write!(f, "refused {}: ", self.number())?;
        match self {
            Refusal::Null => write!(f, "there is no word, or a null one"),
            Refusal::Dwarf { eh_frame_fde } => {
                write!(f, "the frame is in __eh_frame, at {eh_frame_fde:#x}")
            }
            Refusal::UnrecognizedKind(kind) => write!(f, "the word's kind {kind} is unknown"),
            Refusal::InvalidFrameless => write!(f, "the word's permutation is none"),
            Refusal::NotSound => write!(f, "the word is not sound"),
            Refusal::FramelessIndirect => write!(f, "the frame's size stands in the code"),
            Refusal::AboveAddresses => {
                write!(f, "the window or the caller's stack ends above 2^64 - 1")
            }
            Refusal::OutsideWindow => write!(f, "a slot does not lie in the window"),
        }
    }
}

impl Display for UnwindError {
    fn fmt(&self, f: &mut Formatter) -> Result {
        match self {
            UnwindError::Lookup { error, .. } => error.fmt(f),
            UnwindError::Step { refusal, .. } => refusal.fmt(f),
        }
    }
}

impl Display for PermutationError {
    fn fmt(&self, f: &mut Formatter) -> Result {
        let what = match self {
            PermutationError::InvalidEncoding => "the count or number has no registers",
            PermutationError::InvalidList => "the count or list has no number",
        };
        write!(f, "refused {}: {what}", self.number())
    }
}

// No error has a source: its text says what those inside it say, and a chain says a thing once.
impl std::error::Error for ReadError {}
impl std::error::Error for Error {}
impl std::error::Error for Refusal {}
impl std::error::Error for UnwindError {}
impl std::error::Error for PermutationError {}

#[cfg(test)]
mod tests {
    use super::*;

    #[test]
    fn every_number_has_a_name_that_gives_it_back() {
        for number in 1..=15 {
            assert_eq!(Error::from_number(number).number(), number);
            let error = UnwindError::from_number(number, 0, 7);
            assert_eq!(
                (error.number(), error.value(), error.probes()),
                (number, 0, 7)
            );
        }
        for number in 20..=27 {
            let value = if number == 21 || number == 22 { 9 } else { 0 };
            let refusal = Refusal::from_number(number, value);
            assert_eq!((refusal.number(), refusal.value()), (number, value));
            let error = UnwindError::from_number(number, value, 7);
            assert_eq!(
                (error.number(), error.value(), error.probes()),
                (number, value, 7)
            );
        }
        for number in [23, 28] {
            assert_eq!(PermutationError::from_number(number).number(), number);
        }
    }

    #[test]
    fn each_text_begins_with_its_number_and_no_two_are_the_same() {
        let errors = (1..=15).map(|number| Error::from_number(number).to_string());
        let refusals = (20..=27).map(|number| Refusal::from_number(number, 0).to_string());
        let numbers = (1..=15).chain(20..=27);
        let texts: Vec<String> = errors.chain(refusals).collect();
        for (number, text) in numbers.zip(&texts) {
            assert!(text.starts_with(&format!("refused {number}: ")), "{text}");
            let what = text.split_once(": ").map(|(_, what)| what);
            let same = |other: &&String| other.split_once(": ").map(|(_, what)| what) == what;
            assert_eq!(texts.iter().filter(same).count(), 1, "{text}");
        }
    }

    /// The texts of an error and of its sources, in the chain's order.
    fn chain(error: &dyn std::error::Error) -> Vec<String> {
        let sources = std::iter::successors(error.source(), |source| source.source());
        let texts = sources.map(|source| source.to_string());
        std::iter::once(error.to_string()).chain(texts).collect()
    }

    #[test]
    fn a_chain_says_each_thing_once() {
        let mut errors: Vec<Box<dyn std::error::Error>> = Vec::new();
        for number in 1..=15 {
            let error = Error::from_number(number);
            if let Error::ReadError(read) = error {
                assert_eq!(read.to_string(), error.to_string());
                errors.push(read.into());
            }
            errors.push(error.into());
            errors.push(UnwindError::from_number(number, 0, 7).into());
        }
        for number in 20..=27 {
            errors.push(Refusal::from_number(number, 9).into());
            errors.push(UnwindError::from_number(number, 9, 7).into());
        }
        for number in [23, 28] {
            errors.push(PermutationError::from_number(number).into());
        }
        assert_eq!(errors.len(), 9 + 2 * 15 + 2 * 8 + 2);
        for error in errors {
            let texts = chain(&*error);
            for (i, text) in texts.iter().enumerate() {
                let said = |other: &String| other.contains(&text[..]) || text.contains(&other[..]);
                assert!(!texts[..i].iter().any(said), "{texts:?}");
            }
        }
    }

    /// The walk itself finds a thing that is said twice.
    #[test]
    fn the_chain_of_another_error_is_walked_to_its_end() {
        #[derive(Debug)]
        struct Outer(Error);
        impl Display for Outer {
            fn fmt(&self, f: &mut Formatter) -> Result {
                write!(f, "no caller: {}", self.0)
            }
        }
        impl std::error::Error for Outer {
            fn source(&self) -> Option<&(dyn std::error::Error + 'static)> {
                Some(&self.0)
            }
        }
        let text = "refused 6: a page's kind is unknown".to_owned();
        let outer = format!("no caller: {text}");
        assert_eq!(chain(&Outer(Error::InvalidPageKind)), [outer, text]);
    }
}
