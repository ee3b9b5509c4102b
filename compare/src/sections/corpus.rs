//! Real sections, with the listings and the lookups that stand beside them.

use super::case::Case;
use super::check::Checks;
use crate::ffi::section::{self as ours, LookupAnswer, FOUND, NONE, REFUSED};
use crate::oracle::section::Told;
use crate::tally::{Report, Tally};
use std::fs::OpenOptions;
use std::io::{Error, ErrorKind, Result, Write};
use std::path::{Path, PathBuf};
use std::process::Command;
use std::sync::Once;

/// A real section's name and bytes.
pub struct Real {
    pub name: String,
    pub bytes: Vec<u8>,
    path: PathBuf,
}

/// The folder of sections, if there is one.
pub fn folder() -> Option<PathBuf> {
    let corpus = PathBuf::from(std::env::var_os("BRASSPURSE_CORPUS")?);
    Some(corpus.join("sections")).filter(|sections| sections.is_dir())
}

/// Says that a group has no input, since the corpus isn't there, and leaves the line in a file for
/// `compare/run` to count.
pub fn skipped(group: &str) {
    let line = format!("skipped: {group}, no corpus");
    println!("{line}");
    let Some(path) = std::env::var_os("BRASSPURSE_SKIPPED") else {
        return;
    };
    let file = OpenOptions::new().create(true).append(true).open(path);
    if let Err(e) = file.and_then(|mut file| writeln!(file, "{line}")) {
        eprintln!("compare: BRASSPURSE_SKIPPED: {e}");
    }
}

/// All real sections by name; none where there is no folder, which is said once.
pub fn sections() -> Result<Vec<Real>> {
    static SAID: Once = Once::new();
    let Some(folder) = folder() else {
        SAID.call_once(|| skipped("inputs made of real sections"));
        return Ok(Vec::new());
    };
    files(&folder, "bin")?.into_iter().map(read).collect()
}

/// The bytes of the section with a name; none of them where there is no such section.
pub fn find<'a>(sections: &'a [Real], name: &str) -> &'a [u8] {
    let section = sections.iter().find(|real| real.name == name);
    section.map_or(&[], |real| &real.bytes)
}

/// The files of a folder with an extension, by name.
pub fn files(folder: &Path, extension: &str) -> Result<Vec<PathBuf>> {
    let mut paths = Vec::new();
    for entry in std::fs::read_dir(folder)? {
        paths.push(entry?.path());
    }
    paths.retain(|path| path.extension().is_some_and(|found| found == extension));
    paths.sort();
    Ok(paths)
}

fn read(path: PathBuf) -> Result<Real> {
    Ok(Real {
        name: path
            .file_stem()
            .unwrap_or_default()
            .to_string_lossy()
            .into_owned(),
        bytes: std::fs::read(&path)?,
        path,
    })
}

pub fn compare(checks: &mut Checks, report: &mut Report) -> Result<()> {
    if folder().is_none() {
        skipped("sections, real");
        return Ok(());
    }
    let mut listings = Tally::new("sections, real, lines of listings");
    let mut lookups = Tally::new("sections, real, lookups listed");
    let sections = sections()?;
    let mut not_well_formed = Vec::new();
    for (number, real) in sections.iter().enumerate() {
        if !checks.section(&Case::new(&real.name, number, &real.bytes)) {
            not_well_formed.push(&real.name[..]);
        }
        listing(&mut listings, real)?;
        listed_lookups(&mut lookups, real)?;
    }
    println!(
        "{:<44} {:>10} sections, not well formed: {}",
        "sections, real",
        sections.len(),
        not_well_formed.join(", ")
    );
    report.add(listings);
    report.add(lookups);
    Ok(())
}

/// Each line that the program `functions` would print, without its limit on bytes.
fn listing(tally: &mut Tally, real: &Real) -> Result<()> {
    let text = listed(&real.path)?;
    let mut lines = text.lines();
    let mut check = |line: &str| {
        let listed = lines.next().unwrap_or("nothing");
        tally.check(|| real.name.clone(), line, listed);
    };
    for line in iterated(&real.bytes) {
        check(&line);
    }
    check("nothing");
    Ok(())
}

/// The iteration in the form of the program `functions` (docs/FORMAT.md, 12).
pub fn iterated(section: &[u8]) -> Vec<String> {
    let (mut lines, mut cursor, mut functions) = (Vec::new(), (0, 0), 0);
    loop {
        let next = ours::next(section, cursor);
        if next.outcome == FOUND {
            functions += 1;
            let (start, end, opcode) = (next.start, next.end, next.opcode);
            lines.push(format!("{start:08x} {end:08x} {opcode:08x}"));
        } else if next.outcome == REFUSED {
            lines.push(format!("refused {}", next.refusal));
        }
        if next.outcome == NONE || cursor == (next.page, next.index) {
            lines.push(format!("end {functions}"));
            return lines;
        }
        cursor = (next.page, next.index);
    }
}

/// The listing beside a section, packed or not.
fn listed(section: &Path) -> Result<String> {
    let plain = section.with_extension("txt");
    if plain.exists() {
        return std::fs::read_to_string(plain);
    }
    unpacked(&section.with_extension("txt.gz"))
}

/// The text that is packed in a file.
pub fn unpacked(path: &Path) -> Result<String> {
    let unpacked = Command::new("gzip").arg("-dc").arg(path).output()?;
    if !unpacked.status.success() {
        return Err(malformed(path));
    }
    String::from_utf8(unpacked.stdout).map_err(|_| malformed(path))
}

/// Both calls of lookup on each line `pc start end opcode probes` or `pc none probes`.
fn listed_lookups(tally: &mut Tally, real: &Real) -> Result<()> {
    let path = real.path.with_extension("lookups");
    if !path.exists() {
        return Ok(());
    }
    let lists = ours::parse(&real.bytes).lists;
    let told = |answer: LookupAnswer| (Told::from(answer), answer.probes);
    for line in std::fs::read_to_string(&path)?.lines() {
        let (address, listed) = lookup_line(line).ok_or_else(|| malformed(&path))?;
        let input = || format!("lookup {address:#x} of {}", real.name);
        tally.check(input, told(ours::lookup(&real.bytes, address)), listed);
        let again = ours::lookup_in(&real.bytes, lists, address);
        tally.check(input, told(again), listed);
    }
    Ok(())
}

/// The address, and the answer with its probes.
fn lookup_line(line: &str) -> Option<(u32, (Told, u8))> {
    let number = |word: &str| u32::from_str_radix(word, 16).ok();
    let words: Vec<&str> = line.split(' ').collect();
    let (address, probes, (outcome, start, end, opcode)) = match words[..] {
        [address, "none", probes] => (address, probes, (NONE, 0, 0, 0)),
        [address, start, end, opcode, probes] => {
            let found = (FOUND, number(start)?, number(end)?, number(opcode)?);
            (address, probes, found)
        }
        _ => return None,
    };
    let answer = Told {
        outcome,
        start,
        end,
        opcode,
        ..Told::NOTHING
    };
    Some((number(address)?, (answer, probes.parse().ok()?)))
}

pub fn malformed(path: &Path) -> Error {
    let said = format!("{} can't be read", path.display());
    Error::new(ErrorKind::InvalidData, said)
}
