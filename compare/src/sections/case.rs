//! One section that both sides are asked about.

use std::fmt::{Display, Formatter, Result};

/// Places in memory that a section is put at, so that every alignment is met.
const PLACES: usize = 8;
/// Sections up to this length are shown whole.
const SHOWN: usize = 256;

pub struct Case<'a> {
    family: &'a str,
    number: usize,
    memory: Vec<u8>,
    place: usize,
}

impl<'a> Case<'a> {
    /// `number` tells the sections of a family apart.
    pub fn new(family: &'a str, number: usize, section: &[u8]) -> Self {
        let place = number % PLACES;
        let mut memory = vec![0xa5; place];
        memory.extend_from_slice(section);
        Case {
            family,
            number,
            memory,
            place,
        }
    }

    pub fn section(&self) -> &[u8] {
        &self.memory[self.place..]
    }

    pub fn number(&self) -> usize {
        self.number
    }

    /// Says what was asked of this section.
    pub fn asked(&self, question: impl Display) -> String {
        format!("{question} of {self}")
    }
}

impl Display for Case<'_> {
    fn fmt(&self, f: &mut Formatter) -> Result {
        let section = self.section();
        write!(
            f,
            "{} {}, {} bytes",
            self.family,
            self.number,
            section.len()
        )?;
        if section.len() <= SHOWN {
            write!(f, ": {}", hex(section))?;
        }
        Ok(())
    }
}

pub fn hex(bytes: &[u8]) -> String {
    bytes.iter().map(|byte| format!("{byte:02x}")).collect()
}
