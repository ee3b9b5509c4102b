//! What a section should say, and writing it down.

use crate::random::Random;

pub const SENTINEL: u32 = 1;
pub const REGULAR: u32 = 2;
pub const COMPRESSED: u32 = 3;

#[derive(Clone, Default)]
pub struct Plan {
    pub globals: Vec<u32>,
    pub pages: Vec<Page>,
    /// First address of the closing page entry; without one there are no pages at all.
    pub end: Option<u32>,
}

#[derive(Clone)]
pub struct Page {
    pub kind: u32,
    pub first: u32,
    pub functions: Vec<Function>,
    pub locals: Vec<u32>,
}

#[derive(Clone, Copy)]
pub struct Function {
    /// A compressed page keeps its distance from the page's first address, in 24 bits.
    pub start: u32,
    /// The opcode in a regular page, its index in a compressed one.
    pub opcode: u32,
}

/// A section, and where its numbers stand.
pub struct Written {
    pub bytes: Vec<u8>,
    pub fields: Vec<Field>,
}

#[derive(Clone, Copy)]
pub struct Field {
    pub offset: usize,
    pub width: usize,
}

/// Gaps and the order of lists and pages.
pub enum Layout<'a> {
    Plain,
    Random(&'a mut Random),
}

impl Layout<'_> {
    fn gap(&mut self) -> usize {
        match self {
            Layout::Plain => 0,
            Layout::Random(random) => [0, 0, 0, 1, 2, 3, 4, 8][random.below(8) as usize],
        }
    }

    fn shuffle<T>(&mut self, items: &mut [T]) {
        if let Layout::Random(random) = self {
            random.shuffle(items);
        }
    }
}

impl Plan {
    pub fn write(&self, layout: &mut Layout) -> Written {
        let mut out = Written::header();
        let entries = self.pages.len() + usize::from(self.end.is_some());
        let mut lists = [0, 1];
        layout.shuffle(&mut lists);
        let mut entries_at = 0;
        for list in lists {
            out.skip(layout.gap());
            let at = out.bytes.len();
            if list == 0 {
                out.set_list(4, at, self.globals.len());
                out.u32s(&self.globals);
            } else {
                out.set_list(20, at, entries);
                entries_at = at;
                out.u32s(&vec![0; 3 * entries]);
            }
        }
        if let Some(end) = self.end {
            out.set_u32(entries_at + 12 * self.pages.len(), end);
        }
        let mut order: Vec<usize> = (0..self.pages.len()).collect();
        layout.shuffle(&mut order);
        for page in order {
            out.skip(layout.gap());
            out.set_u32(entries_at + 12 * page, self.pages[page].first);
            out.set_u32(entries_at + 12 * page + 4, out.bytes.len() as u32);
            out.page(&self.pages[page], layout);
        }
        out
    }
}

impl Written {
    /// Bytes of which each four are taken as a number, the first ones as often as all others.
    pub fn of_words(bytes: &[u8]) -> Self {
        let field = |word| Field {
            offset: 4 * word,
            width: 4,
        };
        let words = bytes.len() / 4;
        Written {
            bytes: bytes.to_vec(),
            fields: (0..words)
                .chain((0..words).map(|i| i % 24))
                .map(field)
                .collect(),
        }
    }

    /// Version 1 and six zeros; the personalities stay at none.
    fn header() -> Self {
        let mut out = Written {
            bytes: Vec::new(),
            fields: Vec::new(),
        };
        out.u32s(&[1, 0, 0, 0, 0, 0, 0]);
        out
    }

    fn page(&mut self, page: &Page, layout: &mut Layout) {
        let at = self.bytes.len();
        self.u32s(&[page.kind]);
        let compressed = page.kind == COMPRESSED;
        self.u16s(if compressed { 4 } else { 2 });
        let mut lists = [0, 1];
        layout.shuffle(&mut lists);
        for list in lists {
            if list == 0 {
                self.skip(layout.gap());
                self.set_list_16(at, 4, page.functions.len());
                self.u32s(&entries(page));
            } else if compressed {
                self.skip(layout.gap());
                self.set_list_16(at, 8, page.locals.len());
                self.u32s(&page.locals);
            }
        }
    }

    fn skip(&mut self, bytes: usize) {
        self.bytes.resize(self.bytes.len() + bytes, 0xee);
    }

    fn u32s(&mut self, numbers: &[u32]) {
        for number in numbers {
            let (offset, width) = (self.bytes.len(), 4);
            self.fields.push(Field { offset, width });
            self.bytes.extend_from_slice(&number.to_le_bytes());
        }
    }

    /// Zeros, to be set later.
    fn u16s(&mut self, count: usize) {
        for _ in 0..count {
            let (offset, width) = (self.bytes.len(), 2);
            self.fields.push(Field { offset, width });
            self.bytes.extend_from_slice(&[0, 0]);
        }
    }

    fn set_u32(&mut self, offset: usize, number: u32) {
        self.bytes[offset..offset + 4].copy_from_slice(&number.to_le_bytes());
    }

    fn set_list(&mut self, offset: usize, at: usize, len: usize) {
        self.set_u32(offset, at as u32);
        self.set_u32(offset + 4, len as u32);
    }

    /// A list's place in its page, which begins at `page`, and its length.
    fn set_list_16(&mut self, page: usize, offset: usize, len: usize) {
        let place = (self.bytes.len() - page) as u16;
        let offset = page + offset;
        self.bytes[offset..offset + 2].copy_from_slice(&place.to_le_bytes());
        self.bytes[offset + 2..offset + 4].copy_from_slice(&(len as u16).to_le_bytes());
    }
}

fn entries(page: &Page) -> Vec<u32> {
    let entry = |function: &Function| {
        let relative = function.start.wrapping_sub(page.first) & 0x00ff_ffff;
        match page.kind {
            COMPRESSED => vec![function.opcode << 24 | relative],
            _ => vec![function.start, function.opcode],
        }
    };
    page.functions.iter().flat_map(entry).collect()
}
