//! A second reader of sections, written from the format's description alone (docs/FORMAT.md, 1 to
//! 6): straight, and in whole numbers.
//!
//! It tells what the Rust doesn't: probes, cursors, where a function came from, well-formedness,
//! and answers from any cursor and any two lists.

mod answers;
mod bytes;
pub mod frame;
mod page;
mod search;
pub mod unwind;
mod well_formed;

use crate::ffi::section::{
    Cursor, FillAnswer, Lists, LookupAnswer, NextAnswer, ParseAnswer, RangeAnswer, FOUND,
    IN_LOCALS, REFUSED,
};
pub use answers::batched;
use answers::{filled, looked_up, stepped};
use bytes::Bytes;
use page::Page;
use search::search;

/// A refusal's number (docs/FORMAT.md, 11).
pub type Refusal = u8;

const HEADER: u64 = 28;
/// The one version that is read.
const VERSION: u32 = 1;
const PAGE_ENTRY: u64 = 12;
const OPCODE: u64 = 4;

/// A section with its two lists, both granted.
#[derive(Clone, Copy)]
pub struct Section<'a> {
    bytes: Bytes<'a>,
    lists: Lists,
}

/// A function, its page and its index there, and where its opcode stands.
#[derive(Default)]
struct Function {
    start: u32,
    end: u32,
    opcode: u32,
    page: u32,
    index: u32,
    origin: u8,
}

impl<'a> Section<'a> {
    pub fn parse(section: &'a [u8]) -> Result<Self, Refusal> {
        let bytes = Bytes(section);
        if bytes.granted(0, HEADER) && bytes.u32(0) != VERSION {
            return Err(15);
        }
        Self::of_any_version(section)
    }

    /// By the header's lists, whatever its version.
    pub fn of_any_version(section: &'a [u8]) -> Result<Self, Refusal> {
        let bytes = Bytes(section);
        if !bytes.granted(0, HEADER) {
            return Err(1);
        }
        let lists = Lists {
            global_opcodes_offset: bytes.u32(4),
            global_opcodes_len: bytes.u32(8),
            pages_offset: bytes.u32(20),
            pages_len: bytes.u32(24),
        };
        Self::with_lists(section, lists)
    }

    /// Any four numbers, so both lists are granted here.
    pub fn with_lists(section: &'a [u8], lists: Lists) -> Result<Self, Refusal> {
        let bytes = Bytes(section);
        let list = |offset, len, width| bytes.granted(u64::from(offset), u64::from(len) * width);
        if !list(
            lists.global_opcodes_offset,
            lists.global_opcodes_len,
            OPCODE,
        ) {
            return Err(2);
        }
        if !list(lists.pages_offset, lists.pages_len, PAGE_ENTRY) {
            return Err(3);
        }
        Ok(Section { bytes, lists })
    }

    pub fn lists(&self) -> Lists {
        self.lists
    }

    pub fn pages(&self) -> u32 {
        self.lists.pages_len
    }

    /// The number of the last page entry, which only marks the end; 0 if there are none.
    fn last_page(&self) -> u32 {
        self.lists.pages_len.saturating_sub(1)
    }

    fn page_entry(&self, page: u32) -> u64 {
        u64::from(self.lists.pages_offset) + PAGE_ENTRY * u64::from(page)
    }

    pub fn first_address(&self, page: u32) -> u32 {
        self.bytes.u32(self.page_entry(page))
    }

    /// Opens a page that isn't the last, as lookup does: without its local opcodes.
    pub fn open(&self, page: u32) -> Result<Page<'a>, Refusal> {
        let offset = self.bytes.u32(self.page_entry(page) + 4);
        let addresses = (self.first_address(page), self.first_address(page + 1));
        Page::open(self.bytes, offset.into(), addresses)
    }

    /// Whether a page opens for a lookup, and its local opcodes lie outside.
    pub fn lacks_local_opcodes(&self, page: u32) -> bool {
        page < self.last_page() && self.open(page).is_ok() && self.open_whole(page).is_err()
    }

    fn open_whole(&self, page: u32) -> Result<Page<'a>, Refusal> {
        let opened = self.open(page)?;
        opened.grant_local_opcodes()?;
        Ok(opened)
    }

    pub fn address_range(&self) -> (u32, u32) {
        match self.pages() {
            0 => (0, 0),
            pages => (self.first_address(0), self.first_address(pages - 1)),
        }
    }

    pub fn lookup(&self, address: u32) -> LookupAnswer {
        let (page, probes) = self.find_page(address);
        let Some(page) = page else {
            return looked_up(Ok(None), probes);
        };
        match self.open(page) {
            Err(refusal) => looked_up(Err(refusal), probes),
            Ok(opened) => {
                let (index, more) = opened.find(address);
                let function = self.function_found(page, &opened, index);
                looked_up(function.map(Some), probes + more)
            }
        }
    }

    /// The page to search for an address, if there is one, and the entries probed.
    pub fn find_page(&self, address: u32) -> (Option<u32>, u8) {
        let (page, probes) = search(self.pages(), address, |page| self.first_address(page));
        (page.filter(|&page| page != self.last_page()), probes)
    }

    /// After the search of a page: 12; 13; for a local index 11, then 14.
    fn function_found(
        &self,
        page: u32,
        opened: &Page,
        index: Option<u32>,
    ) -> Result<Function, Refusal> {
        let Some(index) = index else {
            return Err(12);
        };
        opened.start(index)?;
        opened.end(index)?;
        if opened.origin(index, self.lists.global_opcodes_len) == IN_LOCALS {
            opened.grant_local_opcodes()?;
        }
        self.function_of(page, opened, index)
    }

    pub fn next(&self, (mut page, mut index): Cursor) -> NextAnswer {
        loop {
            if page >= self.last_page() {
                return stepped(Ok(None), (self.last_page(), 0));
            }
            match self.open_whole(page) {
                Err(refusal) => return stepped(Err(refusal), (page + 1, 0)),
                Ok(opened) if index < opened.functions() => {
                    let function = self.function_of(page, &opened, index).map(Some);
                    return stepped(function, (page, index + 1));
                }
                Ok(_) => (page, index) = (page + 1, 0),
            }
        }
    }

    /// Whose opcode stands beside it, or in a list that is granted: start 13, end 13, then 14.
    fn function_of(&self, page: u32, opened: &Page, index: u32) -> Result<Function, Refusal> {
        Ok(Function {
            start: opened.start(index)?,
            end: opened.end(index)?,
            opcode: opened.opcode(index, self.lists)?,
            page,
            index,
            origin: opened.origin(index, self.lists.global_opcodes_len),
        })
    }

    pub fn fill(&self, mut cursor: Cursor, out: &mut [u32]) -> FillAnswer {
        let mut functions = 0;
        for room in out.chunks_exact_mut(3) {
            let next = self.next(cursor);
            cursor = (next.page, next.index);
            if next.outcome != FOUND {
                return filled(functions, cursor, next.outcome.into(), next.refusal.into());
            }
            room.copy_from_slice(&[next.start, next.end, next.opcode]);
            functions += 1;
        }
        filled(functions, cursor, FOUND.into(), 0)
    }
}

pub fn parse(section: &[u8]) -> ParseAnswer {
    match Section::parse(section) {
        Ok(parsed) => ParseAnswer {
            refusal: 0,
            lists: parsed.lists,
        },
        Err(refusal) => ParseAnswer {
            refusal: refusal.into(),
            lists: Lists::default(),
        },
    }
}

pub fn address_range(section: &Result<Section, Refusal>) -> RangeAnswer {
    let (refusal, (start, end)) = match section {
        Ok(section) => (0, section.address_range()),
        Err(refusal) => (*refusal, (0, 0)),
    };
    RangeAnswer {
        refusal: refusal.into(),
        start,
        end,
    }
}

pub fn lookup(section: &Result<Section, Refusal>, address: u32) -> LookupAnswer {
    match section {
        Ok(section) => section.lookup(address),
        Err(refusal) => looked_up(Err(*refusal), 0),
    }
}

pub fn next(section: &Result<Section, Refusal>, cursor: Cursor) -> NextAnswer {
    match section {
        Ok(section) => section.next(cursor),
        Err(refusal) => stepped(Err(*refusal), cursor),
    }
}

pub fn fill(section: &Result<Section, Refusal>, cursor: Cursor, out: &mut [u32]) -> FillAnswer {
    match section {
        Ok(section) => section.fill(cursor, out),
        Err(refusal) => filled(0, cursor, REFUSED.into(), (*refusal).into()),
    }
}

pub fn is_well_formed(section: &Result<Section, Refusal>) -> bool {
    section.as_ref().is_ok_and(Section::is_well_formed)
}
