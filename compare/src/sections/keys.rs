//! Whether the keys that a lookup searches rise strictly.

use crate::model::{Refusal, Section};

/// Found out once for each page.
pub struct Keys {
    pages: bool,
    functions: Vec<Option<bool>>,
}

impl Keys {
    pub fn new(section: &Result<Section, Refusal>) -> Self {
        Keys {
            pages: section.as_ref().map_or(true, Section::first_addresses_rise),
            functions: vec![None; section.as_ref().map_or(0, Section::pages) as usize],
        }
    }

    /// Those of the pages, and those of the page that a lookup of the address searches.
    pub fn rise(&mut self, section: &Result<Section, Refusal>, address: u32) -> bool {
        let Ok(section) = section else {
            return self.pages;
        };
        let (Some(page), _) = section.find_page(address) else {
            return self.pages;
        };
        let rise = || section.open(page).map_or(true, |opened| opened.keys_rise());
        self.pages && *self.functions[page as usize].get_or_insert_with(rise)
    }
}
