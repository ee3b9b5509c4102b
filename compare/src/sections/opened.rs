//! A section as the model and the Rust have read it.

use super::case::Case;
use crate::ffi::section::Lists;
use crate::model::{Refusal, Section};
use crate::oracle::section::{View, BUILDS};

pub struct Opened<'a> {
    pub case: &'a Case<'a>,
    pub section: &'a [u8],
    pub model: Result<Section<'a>, Refusal>,
    /// The same where the version is 1; else what the lists would give, which is what the calls that
    /// don't read the header are asked for.
    pub listed: Result<Section<'a>, Refusal>,
    /// What the header names; made up where it can't be had.
    pub lists: Lists,
    rust: [Option<Box<dyn View<'a> + 'a>>; 3],
}

impl<'a> Opened<'a> {
    pub fn new(case: &'a Case<'a>) -> Self {
        let section = case.section();
        let listed = Section::of_any_version(section);
        Opened {
            case,
            section,
            lists: listed.as_ref().map_or(Lists::default(), Section::lists),
            model: Section::parse(section),
            listed,
            rust: BUILDS.each_ref().map(|build| (build.open)(section)),
        }
    }

    /// The builds that parsed the section, each by its place in `BUILDS`.
    pub fn views(&self) -> impl Iterator<Item = (usize, &dyn View<'a>)> {
        (0..)
            .zip(&self.rust)
            .filter_map(|(build, view)| Some((build, view.as_deref()?)))
    }
}
