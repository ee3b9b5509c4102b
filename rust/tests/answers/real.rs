//! Real sections and frames, with the answers that stand beside them.

use crate::inputs::{corpus, read, real_sections};
use macho_unwind_info::frames::{step_arm64, RegistersArm64, RegistersX86_64};
use macho_unwind_info::{is_well_formed, Function, LookupAnswer, Refusal, UnwindError, UnwindInfo};
use std::path::{Path, PathBuf};

/// The number that hex digits are.
fn hex(digits: &str) -> u64 {
    u64::from_str_radix(digits, 16).unwrap_or_else(|e| panic!("{digits}: {e}"))
}

fn line(function: &Function) -> String {
    let Function {
        start_address,
        end_address,
        opcode,
        ..
    } = function;
    format!("{start_address:08x} {end_address:08x} {opcode:08x}")
}

#[test]
fn real_sections_are_iterated_as_listed() {
    let mut lines = 0;
    let sections = match real_sections("real_sections_are_iterated_as_listed") {
        Some(sections) => sections,
        None => return,
    };
    for (path, section) in &sections {
        // The others' listings are packed.
        let listed = match std::fs::read_to_string(path.with_extension("txt")) {
            Ok(listed) => listed,
            Err(_) => continue,
        };
        let mut listed = listed.lines();
        let mut functions = UnwindInfo::parse(section).unwrap().functions();
        let mut count = 0;
        while let Some(function) = functions.next().unwrap() {
            let line = line(&function);
            assert_eq!(Some(&line[..]), listed.next(), "{}", path.display());
            count += 1;
        }
        let end = format!("end {count}");
        assert_eq!(Some(&end[..]), listed.next(), "{}", path.display());
        lines += count;
    }
    assert!(lines > 10_000);
}

#[test]
fn real_sections_look_up_as_listed() {
    let mut compared = 0;
    let sections = match real_sections("real_sections_look_up_as_listed") {
        Some(sections) => sections,
        None => return,
    };
    for (path, section) in &sections {
        let lookups = match std::fs::read_to_string(path.with_extension("lookups")) {
            Ok(lookups) => lookups,
            Err(_) => continue,
        };
        let info = UnwindInfo::parse(section).unwrap();
        // `pc start end opcode probes`, or `pc none probes`.
        let listed: Vec<(u32, &str)> = lookups
            .lines()
            .map(|line| line.split_once(' ').unwrap())
            .map(|(address, told)| (hex(address) as u32, told))
            .collect();
        let addresses: Vec<u32> = listed.iter().map(|&(address, _)| address).collect();
        let mut batch = vec![LookupAnswer::default(); addresses.len()];
        let batch = info.lookup_batch(&addresses, &mut batch);
        assert_eq!(batch.len(), listed.len());
        for (&(address, told), in_batch) in listed.iter().zip(batch) {
            let answer = info.lookup_with_probes(address);
            let function = info.lookup(address).unwrap();
            assert_eq!(answer.function().as_ref(), Ok(&function));
            let function = function.map_or("none".to_owned(), |function| line(&function));
            let ours = format!("{function} {}", answer.probes());
            assert_eq!(ours, told, "{address:#x} of {}", path.display());
            assert_eq!(answer, *in_batch);
            compared += 1;
        }
    }
    assert!(compared > 1_000);
}

#[test]
fn real_sections_are_well_formed_but_for_the_one_that_a_linker_broke() {
    let test = "real_sections_are_well_formed_but_for_the_one_that_a_linker_broke";
    let sections = match real_sections(test) {
        Some(sections) => sections,
        None => return,
    };
    for (path, section) in sections {
        let broken = path.ends_with("s_x64_old_broken.bin");
        assert_eq!(is_well_formed(&section), !broken, "{}", path.display());
    }
}

/// A line of a file of frames: one object, in whose texts nothing is escaped.
struct Frame<'a>(&'a str);

impl<'a> Frame<'a> {
    /// What stands after a name, from its first appearance on.
    fn after(&self, name: &str) -> Option<&'a str> {
        let name = format!("\"{name}\": ");
        Some(&self.0[self.0.find(&name)? + name.len()..])
    }

    fn text(&self, name: &str) -> &'a str {
        let quoted = self.after(name).and_then(|rest| rest.strip_prefix('"'));
        quoted.unwrap().split('"').next().unwrap()
    }

    fn number(&self, name: &str) -> u64 {
        hex(self.text(name).strip_prefix("0x").unwrap())
    }

    fn object(&self, name: &str) -> Frame<'a> {
        Frame(self.after(name).unwrap().split('}').next().unwrap())
    }

    fn window(&self) -> Vec<u8> {
        let digits = self.text("window");
        let byte = |at| hex(&digits[at..at + 2]) as u8;
        (0..digits.len()).step_by(2).map(byte).collect()
    }

    fn x86_64(&self) -> RegistersX86_64 {
        RegistersX86_64 {
            rip: self.number("rip"),
            rsp: self.number("rsp"),
            saved: ["rbx", "r12", "r13", "r14", "r15", "rbp"].map(|name| self.number(name)),
        }
    }

    fn arm64(&self) -> RegistersArm64 {
        let mut saved = [0; 20];
        let names = (19..=30).map(|n| format!("x{n}"));
        let names = names.chain((8..=15).map(|n| format!("d{n}")));
        for (register, name) in saved.iter_mut().zip(names) {
            *register = self.number(&name);
        }
        RegistersArm64 {
            pc: self.number("pc"),
            sp: self.number("sp"),
            saved,
        }
    }

    /// What the step gives for its word, which it must not refuse.
    fn stepped_arm64(&self) -> RegistersArm64 {
        let (word, registers) = (self.number("word") as u32, self.object("regs").arm64());
        step_arm64(word, registers, self.number("window_base"), &self.window()).unwrap()
    }

    /// Whether its word is frame-based, of arm64, and marks d pairs.
    fn has_d_pairs(&self) -> bool {
        let word = self.number("word");
        self.text("arch") == "arm64" && word >> 24 & 0b1111 == 4 && word >> 8 & 0b1111 != 0
    }

    /// What the combined call should refuse with, if it should.
    fn refused(&self) -> Option<(u32, u32)> {
        if self.after("expect_refused").is_some() {
            assert!(self.after("expect_refused").unwrap().starts_with("21,"));
            return Some((21, self.number("dwarf_bits") as u32));
        }
        // Code is there for the words that need it.
        self.after("code").map(|_| (25, 0))
    }
}

#[test]
fn real_frames_give_the_callers_that_the_processor_had() {
    let corpus = match corpus("real_frames_give_the_callers_that_the_processor_had") {
        Some(corpus) => corpus,
        None => return,
    };
    let (mut callers, mut refusals, mut with_d_pairs) = ([0; 2], 0, 0);
    for name in ["ox_asm", "ox_c", "oa_c", "oa_pairs"] {
        let section = read(corpus.join(format!("sections/{name}.bin")));
        let info = UnwindInfo::parse(&section).unwrap();
        for line in frames(&corpus, name).lines() {
            let frame = Frame(line);
            let address = frame.number("address") as u32;
            let (base, window) = (frame.number("window_base"), frame.window());
            let regs = frame.object("regs");
            let on_x86_64 = frame.text("arch") == "x86_64";
            if let Some(expected) = frame.refused() {
                let refused = if on_x86_64 {
                    info.unwind_x86_64(address, regs.x86_64(), base, &window)
                        .unwrap_err()
                } else {
                    info.unwind_arm64(address, regs.arm64(), base, &window)
                        .unwrap_err()
                };
                assert_eq!((refused.number(), refused.value()), expected, "{line}");
                refusals += 1;
            } else if on_x86_64 {
                let unwound = info.unwind_x86_64(address, regs.x86_64(), base, &window);
                let caller = unwound.map(|unwound| unwound.registers);
                assert_eq!(caller, Ok(frame.object("expect").x86_64()), "{line}");
                callers[0] += 1;
            } else {
                let unwound = info.unwind_arm64(address, regs.arm64(), base, &window);
                let caller = unwound.map(|unwound| unwound.registers);
                let expected = frame.object("expect").arm64();
                assert_eq!(caller, Ok(expected), "{line}");
                assert_eq!(frame.stepped_arm64(), expected, "{line}");
                callers[1] += 1;
                with_d_pairs += u32::from(frame.has_d_pairs());
            }
        }
    }
    assert!(callers[0] > 1_000 && callers[1] > 700 && with_d_pairs > 500 && refusals > 100);
}

/// What the documentation of `frames` says of them: no refusal, pc, sp, x29 and x30 are right, and
/// the registers that the function stored stay as they are.
#[test]
fn real_frameless_frames_with_pairs_differ_in_what_they_stored() {
    let corpus = match corpus("real_frameless_frames_with_pairs_differ_in_what_they_stored") {
        Some(corpus) => corpus,
        None => return,
    };
    let lines = text(corpus.join("disagreements/oa_leafpairs.jsonl"));
    for line in lines.lines() {
        let frame = Frame(line);
        let (caller, expected) = (frame.stepped_arm64(), frame.object("expect").arm64());
        assert_eq!((caller.pc, caller.sp), (expected.pc, expected.sp), "{line}");
        for at in [RegistersArm64::X29, RegistersArm64::X30] {
            assert_eq!(caller.saved[at], expected.saved[at], "{line}");
        }
        assert_eq!(caller.saved, frame.object("regs").arm64().saved, "{line}");
        assert_ne!(caller.saved, expected.saved, "{line}");
    }
    assert!(lines.lines().count() > 10);
}

fn frames(corpus: &Path, name: &str) -> String {
    text(corpus.join(format!("frames/{name}.jsonl")))
}

fn text(path: PathBuf) -> String {
    String::from_utf8(read(path)).unwrap()
}

/// A word for `__eh_frame` in a real section tells where to look there.
#[test]
fn a_real_dwarf_word_names_its_place() {
    let corpus = match corpus("a_real_dwarf_word_names_its_place") {
        Some(corpus) => corpus,
        None => return,
    };
    let section = read(corpus.join("sections/s_arm_dwarf_1500.bin"));
    let info = UnwindInfo::parse(&section).unwrap();
    let mut functions = info.functions();
    let mut dwarf = 0;
    while let Some(function) = functions.next().unwrap() {
        let unwound = info.unwind_arm64(function.start_address, Default::default(), 0, &[]);
        if let Err(UnwindError::Step {
            refusal: Refusal::Dwarf { eh_frame_fde },
            ..
        }) = unwound
        {
            assert_eq!(function.opcode, 0x0300_0000 | eh_frame_fde);
            dwarf += 1;
        }
    }
    assert!(dwarf > 100);
}
