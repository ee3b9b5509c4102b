//! Lookups at every boundary of a section.

use super::Checks;
use crate::ffi::section::{self as ours, LookupAnswer};
use crate::model;
use crate::oracle::section::Told;
use crate::random::Random;
use crate::sections::keys::Keys;
use crate::sections::opened::Opened;
use crate::sections::questions;

/// An address, with our answer and the model's.
#[derive(Clone, Copy)]
pub struct LookedUp {
    pub address: u32,
    pub ours: LookupAnswer,
    pub model: LookupAnswer,
}

impl Checks {
    pub(super) fn lookups(&mut self, opened: &Opened, random: &mut Random) -> Vec<LookedUp> {
        let mut keys = Keys::new(&opened.listed);
        questions::addresses(&opened.listed, random)
            .into_iter()
            .map(|address| self.lookup(opened, &mut keys, address))
            .collect()
    }

    fn lookup(&mut self, opened: &Opened, keys: &mut Keys, address: u32) -> LookedUp {
        let question = format_args!("lookup {address:#x}");
        let input = || opened.case.asked(question);
        let answer = ours::lookup(opened.section, address);
        let model = model::lookup(&opened.model, address);
        self.lookup.model.check(input, answer, model);
        self.place(input, &opened.model, answer, |cursor| {
            ours::next(opened.section, cursor)
        });
        if opened.listed.is_ok() {
            let again = ours::lookup_in(opened.section, opened.lists, address);
            let model = model::lookup(&opened.listed, address);
            self.lookup.model.check(input, again, model);
            self.place(input, &opened.listed, again, |cursor| {
                ours::next_in(opened.section, opened.lists, cursor)
            });
        }
        let known = (keys.rise(&opened.listed, address), model.refusal.into());
        for (build, view) in opened.views() {
            let told = (Told::from(answer), view.lookup(address));
            self.lookup.told(
                &mut self.outside,
                (opened.case, &question),
                build,
                known,
                told,
            );
        }
        LookedUp {
            address,
            ours: answer,
            model,
        }
    }
}
