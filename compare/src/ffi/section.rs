//! The part of the C interface that reads sections.

use std::mem::size_of;

#[repr(C)]
#[derive(Clone, Copy, Debug, Default, PartialEq, Eq)]
pub struct Lists {
    pub global_opcodes_offset: u32,
    pub global_opcodes_len: u32,
    pub pages_offset: u32,
    pub pages_len: u32,
}

/// `refusal`: 0, or its number with zeros.
#[repr(C)]
#[derive(Clone, Copy, Debug, Default, PartialEq, Eq)]
pub struct ParseAnswer {
    pub refusal: u32,
    pub lists: Lists,
}

/// `refusal`: 0, or its number with zeros.
#[repr(C)]
#[derive(Clone, Copy, Debug, Default, PartialEq, Eq)]
pub struct RangeAnswer {
    pub refusal: u32,
    pub start: u32,
    pub end: u32,
}

/// `outcome`: 0 none, 1 function, 2 refused. What a case has not is 0; the probes always stand.
/// `page` and `index`: the function's.
#[repr(C)]
#[derive(Clone, Copy, Debug, Default, PartialEq, Eq)]
pub struct LookupAnswer {
    pub start: u32,
    pub end: u32,
    pub opcode: u32,
    pub page: u32,
    pub index: u32,
    pub origin: u8,
    pub probes: u8,
    pub outcome: u8,
    pub refusal: u8,
}

/// `outcome`: 0 end, 1 function, 2 refused. `page` and `index`: the cursor for the next call;
/// `function_page` and `function_index`: the function's.
#[repr(C)]
#[derive(Clone, Copy, Debug, Default, PartialEq, Eq)]
pub struct NextAnswer {
    pub start: u32,
    pub end: u32,
    pub opcode: u32,
    pub page: u32,
    pub index: u32,
    pub function_page: u32,
    pub function_index: u32,
    pub origin: u8,
    pub outcome: u8,
    pub refusal: u8,
}

/// `outcome`: 0 end, 1 list full, 2 refused. `functions`: how many were written.
#[repr(C)]
#[derive(Clone, Copy, Debug, Default, PartialEq, Eq)]
pub struct FillAnswer {
    pub functions: usize,
    pub page: u32,
    pub index: u32,
    pub outcome: u16,
    pub refusal: u16,
}

const _: () = assert!(size_of::<LookupAnswer>() == 24 && size_of::<NextAnswer>() == 32);

/// `outcome` of a lookup without a function, and of an iteration at its end.
pub const NONE: u8 = 0;
/// `outcome` of an answer with a function, and of a list that is full.
pub const FOUND: u8 = 1;
/// `outcome` of a refusal.
pub const REFUSED: u8 = 2;

/// `origin` of an opcode that stands in its function's entry.
pub const IN_ENTRY: u8 = 1;
/// `origin` of a global opcode.
pub const IN_GLOBALS: u8 = 2;
/// `origin` of a local opcode of the page.
pub const IN_LOCALS: u8 = 3;

/// A page and a function index, any two numbers.
pub type Cursor = (u32, u32);

type Bytes = *const u8;

extern "C" {
    fn brasspurse_parse(section: Bytes, length: usize) -> ParseAnswer;
    fn brasspurse_address_range(section: Bytes, length: usize) -> RangeAnswer;
    fn brasspurse_address_range_in(section: Bytes, length: usize, lists: Lists) -> RangeAnswer;
    fn brasspurse_lookup(section: Bytes, length: usize, address: u32) -> LookupAnswer;
    fn brasspurse_lookup_in(
        section: Bytes,
        length: usize,
        lists: Lists,
        address: u32,
    ) -> LookupAnswer;
    fn brasspurse_next(section: Bytes, length: usize, page: u32, index: u32) -> NextAnswer;
    fn brasspurse_next_in(
        section: Bytes,
        length: usize,
        lists: Lists,
        page: u32,
        index: u32,
    ) -> NextAnswer;
    fn brasspurse_fill(
        section: Bytes,
        length: usize,
        page: u32,
        index: u32,
        out: *mut u32,
        room: usize,
    ) -> FillAnswer;
    fn brasspurse_fill_in(
        section: Bytes,
        length: usize,
        lists: Lists,
        page: u32,
        index: u32,
        out: *mut u32,
        room: usize,
    ) -> FillAnswer;
    fn brasspurse_is_well_formed(section: Bytes, length: usize) -> u8;
}

pub fn parse(section: &[u8]) -> ParseAnswer {
    unsafe { brasspurse_parse(section.as_ptr(), section.len()) }
}

pub fn address_range(section: &[u8]) -> RangeAnswer {
    unsafe { brasspurse_address_range(section.as_ptr(), section.len()) }
}

pub fn address_range_in(section: &[u8], lists: Lists) -> RangeAnswer {
    unsafe { brasspurse_address_range_in(section.as_ptr(), section.len(), lists) }
}

pub fn lookup(section: &[u8], address: u32) -> LookupAnswer {
    unsafe { brasspurse_lookup(section.as_ptr(), section.len(), address) }
}

pub fn lookup_in(section: &[u8], lists: Lists, address: u32) -> LookupAnswer {
    unsafe { brasspurse_lookup_in(section.as_ptr(), section.len(), lists, address) }
}

pub fn next(section: &[u8], (page, index): Cursor) -> NextAnswer {
    unsafe { brasspurse_next(section.as_ptr(), section.len(), page, index) }
}

pub fn next_in(section: &[u8], lists: Lists, (page, index): Cursor) -> NextAnswer {
    unsafe { brasspurse_next_in(section.as_ptr(), section.len(), lists, page, index) }
}

pub fn fill(section: &[u8], (page, index): Cursor, out: &mut [u32]) -> FillAnswer {
    let (bytes, length) = (section.as_ptr(), section.len());
    unsafe { brasspurse_fill(bytes, length, page, index, out.as_mut_ptr(), out.len()) }
}

pub fn fill_in(section: &[u8], lists: Lists, (page, index): Cursor, out: &mut [u32]) -> FillAnswer {
    let (bytes, length) = (section.as_ptr(), section.len());
    let (list, room) = (out.as_mut_ptr(), out.len());
    unsafe { brasspurse_fill_in(bytes, length, lists, page, index, list, room) }
}

pub fn is_well_formed(section: &[u8]) -> u8 {
    unsafe { brasspurse_is_well_formed(section.as_ptr(), section.len()) }
}
