//! The sections that are recorded, and what is asked of each.

use super::witness::Witness;
use crate::random::Random;
use crate::sections::asked::Question::{self, Lookup, Next, Parse, Range, WellFormed};
use crate::sections::plan::Layout;
use crate::sections::{corpus, damage, made, questions, traps};
use std::io::{Error, Result};

/// Real sections, shortest first.
const REAL: [&str; 3] = [
    "apple_clang_amd64_darwin_exec_with_rpath",
    "s_gap_x64",
    "oa_leafpairs",
];
/// Bytes of a damaged section, at most.
const SHORT: usize = 132;

pub struct Chosen {
    pub name: String,
    pub section: Vec<u8>,
    pub questions: Vec<Question>,
}

/// S, asked at length.
pub fn s() -> Result<Chosen> {
    let trap = traps::all().swap_remove(0);
    let mut questions: Vec<_> = trap.answers.iter().map(|&(question, _)| question).collect();
    let around = [0x1000, 0x1040, 0x1100].map(|address| [address - 1, address, address + 1]);
    questions.extend(around.concat().into_iter().chain([0]).map(Lookup));
    questions.extend((0..3).flat_map(|page| (0..4).map(move |index| Next((page, index)))));
    Ok(chosen(trap.name, trap.section, questions))
}

/// The named cases but S; the model must give the answers that stand beside them.
pub fn named() -> Result<Vec<Chosen>> {
    traps::all().into_iter().skip(1).map(named_case).collect()
}

fn named_case(trap: traps::Trap) -> Result<Chosen> {
    let mut questions = Vec::new();
    for (question, answer) in trap.answers {
        if question.model(&trap.section) != answer {
            let said = format!("{question:?} of {}: the model says otherwise", trap.name);
            return Err(Error::other(said));
        }
        questions.push(question);
    }
    Ok(chosen(trap.name, trap.section, questions))
}

pub fn real() -> Result<Vec<Chosen>> {
    let sections = corpus::sections()?;
    let find = |name: &&str| {
        let real = sections.iter().find(|real| real.name == **name);
        let real = real.ok_or_else(|| Error::other(format!("there is no real section {name}")))?;
        Ok(asked(&real.name, real.bytes.clone(), (24, 12)))
    };
    REAL.iter().map(find).collect()
}

/// Short sections that parse and are not well formed, for ever.
pub fn damaged() -> impl Iterator<Item = Chosen> {
    let mut random = Random::new(20);
    (0..).filter_map(move |i| {
        let mut plan = made::plan(&mut random);
        if i % 2 == 0 {
            damage::plan(&mut random, &mut plan);
        }
        let mut written = plan.write(&mut Layout::Random(&mut random));
        if i % 4 > 0 {
            damage::bytes(&mut random, &mut written);
        }
        let section = written.bytes;
        let is_wrong = Parse.model(&section)[1] == 0 && WellFormed.model(&section)[0] == 0;
        (is_wrong && section.len() <= SHORT).then(|| asked("a damaged section", section, (6, 4)))
    })
}

/// So many lookups and steps, spread over the section's boundaries and its iteration.
fn asked(name: &str, section: Vec<u8>, (lookups, steps): (usize, usize)) -> Chosen {
    let mut random = Random::new(21);
    let witness = Witness::new(name, &section);
    let addresses = questions::addresses(witness.model(), &mut random);
    let any = questions::cursors(witness.model(), &mut random);
    let cursors = spread(&witness.cursors(), steps);
    let questions = [Parse, Range, WellFormed]
        .into_iter()
        .chain(spread(&addresses, lookups).into_iter().map(Lookup))
        .chain(cursors.into_iter().map(Next))
        .chain(any.into_iter().take(2).map(Next))
        .collect();
    drop(witness);
    chosen(name, section, questions)
}

/// At most `count` of the items, the first and the last among them.
pub fn spread<T: Copy>(items: &[T], count: usize) -> Vec<T> {
    if items.len() <= count {
        return items.to_vec();
    }
    (0..count)
        .map(|i| items[i * (items.len() - 1) / (count - 1)])
        .collect()
}

fn chosen(name: &str, section: Vec<u8>, questions: Vec<Question>) -> Chosen {
    let mut once: Vec<Question> = Vec::new();
    for question in questions {
        if !once.contains(&question) {
            once.push(question);
        }
    }
    Chosen {
        name: name.to_owned(),
        section,
        questions: once,
    }
}
