// Stands in the module of each build, after its `macho`, `NAME` and `CHECKS_SUMS`: the builds'
// types have the same names but are not the same.

use super::section::{Build, Functions, Told, View};
use crate::ffi::section::{Lists, ParseAnswer, FOUND};
use macho::raw::CompactUnwindInfoHeader;
use macho::{Error, Function, FunctionIter, ReadError, UnwindInfo};

pub const BUILD: Build = Build {
    name: NAME,
    checks_sums: CHECKS_SUMS,
    parse,
    open: |section| {
        let info = UnwindInfo::parse(section).ok()?;
        Some(Box::new(info))
    },
};

/// The places come from the header, since `UnwindInfo` keeps its lists private.
fn parse(section: &[u8]) -> ParseAnswer {
    let header = UnwindInfo::parse(section)
        .and_then(|_| CompactUnwindInfoHeader::parse(section).map_err(Error::from));
    match header {
        Ok(header) => ParseAnswer {
            refusal: 0,
            lists: Lists {
                global_opcodes_offset: header.global_opcodes_offset(),
                global_opcodes_len: header.global_opcodes_len(),
                pages_offset: header.pages_offset(),
                pages_len: header.pages_len(),
            },
        },
        Err(error) => ParseAnswer {
            refusal: refusal(error).into(),
            lists: Lists::default(),
        },
    }
}

impl<'a> View<'a> for UnwindInfo<'a> {
    fn address_range(&self) -> (u32, u32) {
        let range = UnwindInfo::address_range(self);
        (range.start, range.end)
    }

    fn lookup(&self, address: u32) -> Told {
        Told::by(|| told(UnwindInfo::lookup(self, address)))
    }

    fn functions(&self) -> Box<dyn Functions + 'a> {
        Box::new(UnwindInfo::functions(self))
    }
}

impl Functions for FunctionIter<'_> {
    fn next(&mut self) -> Told {
        Told::by(|| told(FunctionIter::next(self)))
    }
}

fn told(answer: Result<Option<Function>, Error>) -> Told {
    match answer {
        Ok(None) => Told::NOTHING,
        Ok(Some(function)) => Told {
            outcome: FOUND,
            start: function.start_address,
            end: function.end_address,
            opcode: function.opcode,
            ..Told::NOTHING
        },
        Err(error) => Told::refused(refusal(error)),
    }
}

fn refusal(error: Error) -> u8 {
    match error {
        Error::ReadError(ReadError::Header) => 1,
        Error::ReadError(ReadError::GlobalOpcodes) => 2,
        Error::ReadError(ReadError::Pages) => 3,
        Error::ReadError(ReadError::PageKind) => 4,
        Error::UnexpectedSentinelPage => 5,
        Error::InvalidPageKind => 6,
        Error::ReadError(ReadError::RegularPage) => 7,
        Error::ReadError(ReadError::RegularPageFunctions) => 8,
        Error::ReadError(ReadError::CompressedPage) => 9,
        Error::ReadError(ReadError::CompressedPageFunctions) => 10,
        Error::ReadError(ReadError::LocalOpcodes) => 11,
        Error::InvalidPageEntryFirstAddress => 12,
    }
}
