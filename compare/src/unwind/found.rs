//! What all say of an address before a step.

use crate::ffi::section::LookupAnswer;
use crate::model;
use crate::oracle::section::Told;
use crate::random::Random;
use crate::sections::keys::Keys;
use crate::sections::opened::Opened;
use crate::sections::outside::Reason;
use crate::sections::questions;

pub struct Found {
    pub address: u32,
    pub model: LookupAnswer,
    /// By each build of the Rust, where it parsed the section and the address is on the domain.
    pub rust: [Option<LookupAnswer>; 3],
}

/// At every address that the sections are asked at.
pub fn for_each(opened: &Opened, random: &mut Random, mut ask: impl FnMut(&Found)) {
    let mut keys = Keys::new(&opened.listed);
    for address in questions::addresses(&opened.listed, random) {
        ask(&found(opened, &mut keys, address));
    }
}

fn found(opened: &Opened, keys: &mut Keys, address: u32) -> Found {
    let model = model::lookup(&opened.model, address);
    let keys_rise = keys.rise(&opened.listed, address);
    let mut rust = [None; 3];
    for (build, view) in opened.views() {
        if Reason::of(build, keys_rise, model.refusal.into()).is_none() {
            rust[build] = Some(answer(view.lookup(address), model));
        }
    }
    Found {
        address,
        model,
        rust,
    }
}

/// The Rust counts no probes and doesn't say where a function came from, so these are the model's.
/// A panic of the build that checks sums is taken as the refusal it stands for.
fn answer(told: Told, model: LookupAnswer) -> LookupAnswer {
    LookupAnswer {
        start: told.start,
        end: told.end,
        opcode: told.opcode,
        outcome: told.outcome,
        refusal: told.refusal,
        ..model
    }
}
