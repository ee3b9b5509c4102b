//! "Well formed" (docs/FORMAT.md, 6), line by line.

use super::page::Page;
use super::search::rise;
use super::Section;

impl Section<'_> {
    pub fn is_well_formed(&self) -> bool {
        self.first_addresses_rise()
            && (0..self.last_page()).all(|page| match self.open_whole(page) {
                Ok(opened) => self.is_page_well_formed(page, &opened),
                Err(_) => false,
            })
    }

    pub fn first_addresses_rise(&self) -> bool {
        rise(self.pages(), |page| self.first_address(page).into())
    }

    fn is_page_well_formed(&self, page: u32, opened: &Page) -> bool {
        let functions = opened.functions();
        functions > 0
            && opened.whole_start(0) == u64::from(self.first_address(page))
            && rise(functions, |index| opened.whole_start(index))
            && (0..functions).all(|index| {
                opened.whole_start(index) < u64::from(self.first_address(page + 1))
                    && opened.opcode(index, self.lists()).is_ok()
            })
    }
}
