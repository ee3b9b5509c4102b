//! Reading the files of stacks: one stack to a line.

use crate::ffi::frame::Registers;
use crate::frames::case::Case;
use crate::frames::json::{self, Json};
use crate::frames::machine::{Machine, ARM64, X86_64};
use crate::frames::real::read::{bytes, registers};
use crate::sections::corpus::{files, malformed, unpacked};
use std::io::Result;
use std::path::PathBuf;

pub struct Walk<const N: usize> {
    pub id: String,
    pub section: String,
    /// The registers of the innermost frame, and the whole stack.
    pub case: Case<N>,
    image_base: u64,
    /// The first program counter, then the return addresses, innermost first.
    addresses: Vec<u64>,
    /// Refusal and program counter after the last of them.
    end: (u32, u64),
    /// The frame whose word is indirect, if one is.
    indirect: Option<u32>,
    pub reached: Registers<N>,
}

impl<const N: usize> Walk<N> {
    /// What is looked up for a frame: the pc's place in the image, for a return address one less.
    pub fn address(&self, frame: usize) -> Option<u32> {
        let less = u64::from(frame > 0);
        let place = self.addresses[frame].checked_sub(self.image_base + less)?;
        place.try_into().ok()
    }

    /// Refusal and program counter after each frame, up to one that is refused.
    pub fn expected(&self) -> Vec<(u32, u64)> {
        let callers = self.addresses.iter().skip(1).map(|&pc| (0, pc));
        let mut all: Vec<_> = callers.chain([self.end]).collect();
        if let Some(frame) = self.indirect {
            all.truncate(frame as usize);
            all.push((25, self.addresses[frame as usize]));
        }
        all
    }

    /// Whether all its frames can be stepped out of up to its end.
    pub fn ends_whole(&self) -> bool {
        self.indirect.is_none()
    }
}

#[derive(Default)]
pub struct Walks {
    pub x86_64: Vec<Walk<6>>,
    pub arm64: Vec<Walk<20>>,
}

/// All stacks; none where there is no folder of them.
pub fn read() -> Result<Option<Walks>> {
    let Some(corpus) = std::env::var_os("BRASSPURSE_CORPUS").map(PathBuf::from) else {
        return Ok(None);
    };
    let folder = corpus.join("walks");
    if !folder.is_dir() {
        return Ok(None);
    }
    let mut walks = Walks::default();
    for path in files(&folder, "gz")? {
        if path.to_string_lossy().ends_with(".jsonl.gz") {
            for line in unpacked(&path)?.lines() {
                walks.add(line).ok_or_else(|| malformed(&path))?;
            }
        }
    }
    Ok(Some(walks))
}

impl Walks {
    fn add(&mut self, line: &str) -> Option<()> {
        let walk = json::parse(line)?;
        match walk.get("arch")?.text()? {
            "x86_64" => self.x86_64.push(parsed(&X86_64, &walk)?),
            "arm64" => self.arm64.push(parsed(&ARM64, &walk)?),
            _ => return None,
        }
        Some(())
    }
}

fn parsed<const N: usize>(machine: &Machine<N>, walk: &Json) -> Option<Walk<N>> {
    let text = |name| walk.get(name)?.text();
    let hex = |name| walk.get(name)?.hex();
    let expect = walk.get("expect")?;
    let addresses = addresses(expect.get("addresses")?)?;
    Some(Walk {
        id: text("id")?.to_owned(),
        section: text("section")?.strip_suffix(".bin")?.to_owned(),
        case: Case {
            word: 0,
            registers: registers(machine, walk.get("regs")?)?,
            base: hex("window_base")?,
            bytes: bytes(text("window")?)?,
        },
        image_base: hex("image_base")?,
        end: end(expect.get("end")?.text()?, *addresses.last()?)?,
        addresses,
        indirect: match walk.get("first_indirect_frame")? {
            Json::Number(frame) => Some(*frame),
            _ => None,
        },
        reached: registers(machine, expect.get("regs")?)?,
    })
}

fn addresses(list: &Json) -> Option<Vec<u64>> {
    let Json::List(items) = list else {
        return None;
    };
    items.iter().map(Json::hex).collect()
}

/// The return address 0 is stepped to; outside of the image no function is found.
fn end(said: &str, last: u64) -> Option<(u32, u64)> {
    match said {
        "return address 0" => Some((0, 0)),
        "left the image" => Some((20, last)),
        "refused 21" => Some((21, last)),
        _ => None,
    }
}
