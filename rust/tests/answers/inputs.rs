//! What the tests ask about: section S, real sections, damaged ones, and numbers at random.

#![forbid(unsafe_code)]

use std::fs::OpenOptions;
use std::io::Write;
use std::path::PathBuf;

/// Section S, 80 bytes (docs/FORMAT.md, 2.8).
pub fn s() -> Vec<u8> {
    read(concat!(env!("CARGO_MANIFEST_DIR"), "/../sections/s.bin").into())
}

/// The folder of real sections and frames. Where there is none, the test that asks, by its name, is
/// said to be skipped.
pub fn corpus(test: &str) -> Option<PathBuf> {
    let default = concat!(env!("CARGO_MANIFEST_DIR"), "/../../shared/corpus");
    let folder = named("BRASSPURSE_CORPUS").unwrap_or_else(|| default.into());
    if folder.is_dir() {
        return Some(folder);
    }
    skipped(test);
    None
}

/// The path that a variable names; an empty one names none.
fn named(variable: &str) -> Option<PathBuf> {
    let path = std::env::var_os(variable).filter(|path| !path.is_empty());
    path.map(PathBuf::from)
}

/// Says so on standard error, and in the file that `BRASSPURSE_SKIPPED` names, whose lines `rust/run`
/// counts.
fn skipped(test: &str) {
    let said = format!("skipped: {test}, no corpus\n");
    // Straight to the stream: what `eprintln` says, a test that passes keeps to itself.
    std::io::stderr().write_all(said.as_bytes()).unwrap();
    if let Some(file) = named("BRASSPURSE_SKIPPED") {
        let file = OpenOptions::new().append(true).create(true).open(file);
        file.unwrap().write_all(said.as_bytes()).unwrap();
    }
}

/// Real sections with their files' paths, by name, at least one; nothing where the test is skipped.
pub fn real_sections(test: &str) -> Option<Vec<(PathBuf, Vec<u8>)>> {
    let folder = corpus(test)?.join("sections");
    let entries =
        std::fs::read_dir(&folder).unwrap_or_else(|e| panic!("{}: {e}", folder.display()));
    let mut paths: Vec<PathBuf> = entries.map(|entry| entry.unwrap().path()).collect();
    paths.retain(|path| path.extension().map_or(false, |found| found == "bin"));
    paths.sort();
    assert!(!paths.is_empty(), "no sections in {}", folder.display());
    let with_bytes = |path: PathBuf| (path.clone(), read(path));
    Some(paths.into_iter().map(with_bytes).collect())
}

/// A file's bytes; without the file the test fails, and names it.
pub fn read(path: PathBuf) -> Vec<u8> {
    std::fs::read(&path).unwrap_or_else(|e| panic!("{}: {e}", path.display()))
}

/// Changes bytes that are not 0, or cuts the end off.
pub fn damage(random: &mut Random, section: &mut Vec<u8>) {
    for _ in 0..=random.below(3) {
        let said: Vec<usize> = (0..section.len()).filter(|&at| section[at] != 0).collect();
        match said.len() {
            0 => return,
            _ if random.below(10) == 0 => section.truncate(random.below(section.len())),
            places => section[said[random.below(places)]] = random.next() as u8,
        }
    }
}

/// Numbers that look random and are the same in every run: Marsaglia's xorshift.
pub struct Random(u64);

impl Random {
    pub fn new(seed: u64) -> Self {
        Random((seed + 1).wrapping_mul(0x9e37_79b9_7f4a_7c15))
    }

    pub fn next(&mut self) -> u32 {
        self.0 ^= self.0 << 13;
        self.0 ^= self.0 >> 7;
        self.0 ^= self.0 << 17;
        (self.0 >> 32) as u32
    }

    /// A number below `bound`.
    pub fn below(&mut self, bound: usize) -> usize {
        self.next() as usize % bound
    }
}
