//! A second-level page of either kind, and its functions.

use super::bytes::Bytes;
use super::search::{rise, search};
use super::{Refusal, OPCODE};
use crate::ffi::section::{Lists, IN_ENTRY, IN_GLOBALS, IN_LOCALS};

const SENTINEL: u32 = 1;
const REGULAR: u32 = 2;
const COMPRESSED: u32 = 3;

const REGULAR_ENTRY: u64 = 8;
const COMPRESSED_ENTRY: u64 = 4;

pub struct Page<'a> {
    bytes: Bytes<'a>,
    compressed: bool,
    first_address: u32,
    next_first_address: u32,
    functions: List,
    local_opcodes: List,
}

#[derive(Default)]
struct List {
    offset: u64,
    len: u32,
}

impl<'a> Page<'a> {
    /// 4; 5 or 6; 7 then 8, or 9 then 10. `addresses`: this page's first one, and the next's.
    pub fn open(bytes: Bytes<'a>, offset: u64, addresses: (u32, u32)) -> Result<Self, Refusal> {
        if !bytes.granted(offset, 4) {
            return Err(4);
        }
        let compressed = match bytes.u32(offset) {
            SENTINEL => return Err(5),
            REGULAR => false,
            COMPRESSED => true,
            _ => return Err(6),
        };
        let (head, unreadable) = if compressed { (12, 9) } else { (8, 7) };
        if !bytes.granted(offset, head) {
            return Err(unreadable);
        }
        let list = |at| List {
            offset: offset + u64::from(bytes.u16(offset + at)),
            len: bytes.u16(offset + at + 2).into(),
        };
        let page = Page {
            bytes,
            compressed,
            first_address: addresses.0,
            next_first_address: addresses.1,
            functions: list(4),
            local_opcodes: if compressed { list(8) } else { List::default() },
        };
        if !page.granted(&page.functions, page.entry_width()) {
            return Err(unreadable + 1);
        }
        Ok(page)
    }

    /// 11; a regular page has no such list.
    pub fn grant_local_opcodes(&self) -> Result<(), Refusal> {
        if self.compressed && !self.granted(&self.local_opcodes, OPCODE) {
            return Err(11);
        }
        Ok(())
    }

    fn granted(&self, list: &List, width: u64) -> bool {
        self.bytes.granted(list.offset, u64::from(list.len) * width)
    }

    fn entry_width(&self) -> u64 {
        if self.compressed {
            COMPRESSED_ENTRY
        } else {
            REGULAR_ENTRY
        }
    }

    pub fn functions(&self) -> u32 {
        self.functions.len
    }

    fn entry(&self, index: u32) -> u64 {
        self.functions.offset + self.entry_width() * u64::from(index)
    }

    /// What the search compares: an absolute address, or one relative to the page's first.
    fn key(&self, index: u32) -> u32 {
        let word = self.bytes.u32(self.entry(index));
        if self.compressed {
            word & 0x00ff_ffff
        } else {
            word
        }
    }

    /// The page was found by its first address, so that one isn't above the address.
    pub fn find(&self, address: u32) -> (Option<u32>, u8) {
        let sought = if self.compressed {
            address - self.first_address
        } else {
            address
        };
        search(self.functions(), sought, |index| self.key(index))
    }

    pub fn keys_rise(&self) -> bool {
        rise(self.functions(), |index| self.key(index).into())
    }

    /// The start as a whole number.
    pub fn whole_start(&self, index: u32) -> u64 {
        let base = if self.compressed {
            self.first_address
        } else {
            0
        };
        u64::from(base) + u64::from(self.key(index))
    }

    pub fn start(&self, index: u32) -> Result<u32, Refusal> {
        self.whole_start(index).try_into().map_err(|_| 13)
    }

    pub fn end(&self, index: u32) -> Result<u32, Refusal> {
        if index + 1 < self.functions() {
            self.start(index + 1)
        } else {
            Ok(self.next_first_address)
        }
    }

    fn opcode_index(&self, index: u32) -> u32 {
        self.bytes.u32(self.entry(index)) >> 24
    }

    /// A regular entry has its opcode in itself; an index below the number of global opcodes names
    /// one of these, any other a local one.
    pub fn origin(&self, index: u32, globals: u32) -> u8 {
        if !self.compressed {
            IN_ENTRY
        } else if self.opcode_index(index) < globals {
            IN_GLOBALS
        } else {
            IN_LOCALS
        }
    }

    /// Of a function whose opcode stands beside it, or in a list that is granted; 14.
    pub fn opcode(&self, index: u32, lists: Lists) -> Result<u32, Refusal> {
        let globals = lists.global_opcodes_len;
        let place = match self.origin(index, globals) {
            IN_ENTRY => self.entry(index) + 4,
            IN_GLOBALS => {
                let offset = u64::from(lists.global_opcodes_offset);
                offset + OPCODE * u64::from(self.opcode_index(index))
            }
            _ => {
                let local = self.opcode_index(index) - globals;
                if local >= self.local_opcodes.len {
                    return Err(14);
                }
                self.local_opcodes.offset + OPCODE * u64::from(local)
            }
        };
        Ok(self.bytes.u32(place))
    }
}
