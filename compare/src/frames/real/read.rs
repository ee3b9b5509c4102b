//! Reading the files of frames: one frame to a line.

use crate::ffi::frame::Registers;
use crate::frames::case::Case;
use crate::frames::json::{self, Json};
use crate::frames::machine::{Machine, ARM64, X86_64};
use crate::sections::corpus::{files, malformed};
use std::io::Result;
use std::path::PathBuf;

pub struct Executed<const N: usize> {
    pub id: String,
    pub case: Case<N>,
    pub told: Told<N>,
    /// Marked: with d pairs from bits 5 to 8 the caller would be another.
    pub needs_d_pairs: bool,
    /// A section's name, and the address in it that has the word.
    pub section: String,
    pub address: u32,
}

/// What is known of the caller, and how far a step goes towards it.
pub enum Told<const N: usize> {
    Caller(Registers<N>),
    Indirect,
    /// Number and value.
    Refused(u32, u32),
    /// Registers that a step gives otherwise, in the order of their names.
    Differs(Registers<N>, Vec<String>),
}

#[derive(Default)]
pub struct Frames {
    pub x86_64: Vec<Executed<6>>,
    pub arm64: Vec<Executed<20>>,
    /// Frames of other machines.
    pub skipped: usize,
}

/// All frames; none where there is no folder of them.
pub fn read() -> Result<Option<Frames>> {
    let Some(corpus) = std::env::var_os("BRASSPURSE_CORPUS").map(PathBuf::from) else {
        return Ok(None);
    };
    if !corpus.join("frames").is_dir() {
        return Ok(None);
    }
    let mut frames = Frames::default();
    for folder in ["frames", "disagreements"] {
        for path in files(&corpus.join(folder), "jsonl")? {
            for line in std::fs::read_to_string(&path)?.lines() {
                frames.add(line).ok_or_else(|| malformed(&path))?;
            }
        }
    }
    Ok(Some(frames))
}

impl Frames {
    fn add(&mut self, line: &str) -> Option<()> {
        let frame = json::parse(line)?;
        match frame.get("arch")?.text()? {
            "x86_64" => self.x86_64.push(executed(&X86_64, &frame)?),
            "arm64" => self.arm64.push(executed(&ARM64, &frame)?),
            _ => self.skipped += 1,
        }
        Some(())
    }
}

fn executed<const N: usize>(machine: &Machine<N>, frame: &Json) -> Option<Executed<N>> {
    let text = |name| frame.get(name)?.text();
    let hex = |name| frame.get(name)?.hex();
    Some(Executed {
        id: text("id")?.to_owned(),
        case: Case {
            word: hex("word")?.try_into().ok()?,
            registers: registers(machine, frame.get("regs")?)?,
            base: hex("window_base")?,
            bytes: bytes(text("window")?)?,
        },
        told: told(machine, frame)?,
        needs_d_pairs: needs_d_pairs(frame),
        section: text("section")?.strip_suffix(".bin")?.to_owned(),
        address: hex("address")?.try_into().ok()?,
    })
}

fn told<const N: usize>(machine: &Machine<N>, frame: &Json) -> Option<Told<N>> {
    if let Some(&Json::Number(refusal)) = frame.get("expect_refused") {
        let value = frame.get("dwarf_bits").map_or(Some(0), Json::hex)?;
        return Some(Told::Refused(refusal, value.try_into().ok()?));
    }
    // The function's code is there for the words that need it.
    if frame.get("code").is_some() {
        return Some(Told::Indirect);
    }
    let caller = registers(machine, frame.get("expect")?)?;
    Some(match frame.get("model_differs_in") {
        Some(named) => Told::Differs(caller, names(named)?),
        None => Told::Caller(caller),
    })
}

fn needs_d_pairs(frame: &Json) -> bool {
    matches!(frame.get("needs_t03"), Some(Json::Truth(true)))
}

pub fn registers<const N: usize>(machine: &Machine<N>, named: &Json) -> Option<Registers<N>> {
    let register = |name| named.get(name)?.hex();
    let mut saved = [0; N];
    for (number, name) in saved.iter_mut().zip(machine.saved_names) {
        *number = register(name)?;
    }
    let [pc, sp] = machine.first_names;
    Some(Registers {
        pc: register(pc)?,
        sp: register(sp)?,
        saved,
    })
}

fn names(list: &Json) -> Option<Vec<String>> {
    let Json::List(items) = list else {
        return None;
    };
    let mut names: Vec<String> = items
        .iter()
        .map(|item| item.text().map(str::to_owned))
        .collect::<Option<_>>()?;
    names.sort();
    Some(names)
}

/// Two hex digits a byte.
pub fn bytes(digits: &str) -> Option<Vec<u8>> {
    let byte = |at| u8::from_str_radix(digits.get(at..at + 2)?, 16).ok();
    (0..digits.len()).step_by(2).map(byte).collect()
}
