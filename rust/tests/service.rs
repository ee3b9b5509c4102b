//! A part of a report service, written against the original and run with it. Changed since, beside
//! the dependency's line, is only what is marked "changed"; the crate's documentation lists it.

#![forbid(unsafe_code)]

// Changed: `Named` too.
use macho_unwind_info::opcodes::{
    Named, OpcodeArm64, OpcodeBitfield, OpcodeX86_64, RegisterNameX86_64,
};
use macho_unwind_info::{Error, Function, ReadError, UnwindInfo};
use std::collections::HashMap;
use std::fmt;

#[derive(Clone, Copy)]
pub enum Machine {
    X86_64,
    Arm64,
}

/// An image that freezes are reported for.
pub struct Image {
    pub name: &'static str,
    pub machine: Machine,
    pub section: Vec<u8>,
}

#[derive(Debug)]
pub enum Failure {
    Section(&'static str, Error),
    Uncovered(u32),
}

impl fmt::Display for Failure {
    fn fmt(&self, f: &mut fmt::Formatter) -> fmt::Result {
        match self {
            Failure::Section(image, _) => write!(f, "{image} can't be read"),
            Failure::Uncovered(address) => write!(f, "nothing covers {address:#x}"),
        }
    }
}

impl std::error::Error for Failure {
    fn source(&self) -> Option<&(dyn std::error::Error + 'static)> {
        match self {
            Failure::Section(_, error) => Some(error),
            Failure::Uncovered(_) => None,
        }
    }
}

impl Image {
    fn info(&self) -> Result<UnwindInfo<'_>, Failure> {
        UnwindInfo::parse(&self.section).map_err(|error| Failure::Section(self.name, error))
    }

    /// The function that a freeze is filed under.
    pub fn frozen_in(&self, address: u32) -> Result<Function, Failure> {
        let info = self.info()?;
        if !info.address_range().contains(&address) {
            return Err(Failure::Uncovered(address));
        }
        match info.lookup(address) {
            Ok(Some(function)) => Ok(function),
            Ok(None) => Err(Failure::Uncovered(address)),
            Err(error) => Err(Failure::Section(self.name, error)),
        }
    }

    /// A line for each function.
    pub fn listed(&self) -> Result<Vec<String>, Box<dyn std::error::Error>> {
        let info = UnwindInfo::parse(&self.section)?;
        let mut functions = info.functions();
        let mut lines = Vec::new();
        while let Some(function) = functions.next()? {
            let Function {
                start_address,
                end_address,
                opcode,
                // Changed: there are more fields.
                ..
            } = function;
            let word = self.described(opcode);
            lines.push(format!("{start_address:#x}..{end_address:#x} {word}"));
        }
        Ok(lines)
    }

    fn described(&self, opcode: u32) -> String {
        let bits = OpcodeBitfield::from(opcode);
        let lsda = if bits.has_lsda() { ", lsda" } else { "" };
        let start = if bits.is_function_start() {
            ", bit 31"
        } else {
            ""
        };
        let personality = bits.personality_index();
        let word = match self.machine {
            Machine::X86_64 => OpcodeX86_64::parse(opcode).to_string(),
            Machine::Arm64 => OpcodeArm64::parse(opcode).to_string(),
        };
        format!("{word}, personality {personality}{lsda}{start}")
    }

    /// What the service's own unwinder needs: where CFA is, and whether `__eh_frame` has it.
    pub fn recipe(&self, opcode: u32) -> String {
        match self.machine {
            Machine::X86_64 => match OpcodeX86_64::parse(opcode) {
                OpcodeX86_64::Null => "none".into(),
                OpcodeX86_64::FrameBased { saved_regs, .. } => {
                    // Changed: without `rev()`, and a field is a `Named`.
                    let names = saved_regs.iter().filter_map(|field| match field {
                        Named::Absent => None,
                        Named::Register(name) => Some(name.dwarf_name()),
                        Named::Unknown(_) => Some("unknown"),
                    });
                    let names: Vec<&str> = names.collect();
                    format!("rbp+16 {}", names.join(" "))
                }
                OpcodeX86_64::FramelessImmediate {
                    stack_size_in_bytes,
                    saved_regs,
                } => {
                    let first = saved_regs[0] == Some(RegisterNameX86_64::Rbx);
                    format!("rsp+{stack_size_in_bytes} rbx first: {first}")
                }
                OpcodeX86_64::FramelessIndirect {
                    immediate_offset_from_function_start,
                    stack_adjust_in_bytes,
                    ..
                } => format!("code {immediate_offset_from_function_start}+{stack_adjust_in_bytes}"),
                OpcodeX86_64::Dwarf { eh_frame_fde } => format!("fde {eh_frame_fde:#x}"),
                OpcodeX86_64::InvalidFrameless => "invalid".into(),
                OpcodeX86_64::UnrecognizedKind(kind) => format!("kind {kind}"),
            },
            Machine::Arm64 => match OpcodeArm64::parse(opcode) {
                OpcodeArm64::Null => "none".into(),
                OpcodeArm64::Frameless {
                    stack_size_in_bytes,
                } => format!("sp+{stack_size_in_bytes}"),
                OpcodeArm64::Dwarf { eh_frame_fde } => format!("fde {eh_frame_fde:#x}"),
                OpcodeArm64::FrameBased {
                    saved_reg_pair_count,
                    x19_and_x20_saved,
                    ..
                } => format!("x29+16 {saved_reg_pair_count} pairs, x19: {x19_and_x20_saved}"),
                OpcodeArm64::UnrecognizedKind(kind) => format!("kind {kind}"),
            },
        }
    }
}

/// Freezes by function.
#[derive(Default)]
pub struct Tally(HashMap<Function, usize>);

impl Tally {
    pub fn add(&mut self, function: Function) -> usize {
        let count = self.0.entry(function).or_insert(0);
        *count += 1;
        *count
    }
}

/// What the desk is told to do about an error.
pub fn advice(error: &Error) -> &'static str {
    match error {
        Error::ReadError(ReadError::Header) => "ask for the section again",
        Error::ReadError(_) => "the section is cut short",
        Error::InvalidPageEntryFirstAddress => "an older linker's section",
        Error::InvalidPageKind => "not a section of this format",
        Error::UnexpectedSentinelPage => "not a section of this format",
        // Changed: three variants more.
        Error::AddressTooLarge | Error::LocalIndex => "not a section of this format",
        Error::WrongVersion => "a newer linker's section",
    }
}

/// An error and its causes on one line, as a report has it.
pub fn chain(error: &dyn std::error::Error) -> String {
    let mut text = error.to_string();
    let mut source = error.source();
    while let Some(cause) = source {
        text += &format!(": {cause}");
        source = cause.source();
    }
    text
}

fn image(change: impl Fn(&mut Vec<u8>)) -> Image {
    let mut section =
        std::fs::read(concat!(env!("CARGO_MANIFEST_DIR"), "/../sections/s.bin")).unwrap();
    change(&mut section);
    Image {
        name: "calc",
        machine: Machine::X86_64,
        section,
    }
}

fn s() -> Image {
    image(|_| ())
}

#[test]
fn freezes_are_filed_under_their_functions() {
    let (image, mut tally) = (s(), Tally::default());
    let addresses = [0x1000, 0x103f, 0x1040];
    let counts = addresses.map(|address| tally.add(image.frozen_in(address).unwrap()));
    assert_eq!(counts, [1, 2, 1]);
    let outside = image.frozen_in(0x1100).unwrap_err();
    assert_eq!(chain(&outside), "nothing covers 0x1100");
}

#[test]
fn threads_share_a_view() {
    let image = s();
    let info = image.info().unwrap();
    let found = std::thread::scope(|scope| {
        let found = scope.spawn(|| info.lookup(0x1040));
        found.join().unwrap()
    });
    assert_eq!(found.unwrap().unwrap().opcode, 0x0203_0800);
}

#[test]
fn words_are_recipes() {
    let image = s();
    let word = image.frozen_in(0x1000).unwrap().opcode;
    assert_eq!(image.recipe(word), "rbp+16 reg3");
    assert_eq!(image.recipe(0x0103_0045), "rbp+16 reg15 reg3");
    // Changed: it was "rbp+16 reg3".
    assert_eq!(image.recipe(0x0102_0039), "rbp+16 reg3 unknown");
    assert_eq!(image.recipe(0x0203_0800), "rsp+24 rbx first: true");
    assert_eq!(image.recipe(0x0400_0010), "fde 0x10");
    let arm = Image {
        machine: Machine::Arm64,
        ..s()
    };
    assert_eq!(arm.recipe(0x0400_0003), "x29+16 2 pairs, x19: true");
}

#[test]
fn functions_are_listed() {
    let listed = image(|section| section[31] |= 0xd0).listed().unwrap();
    // Changed: the words' text. It was "CFA=reg6+16: reg6=[CFA-16], reg16=[CFA-8], reg3=[CFA-24]" and
    // "CFA=reg7+24: reg16=[CFA-8], reg12=[CFA-16], reg3=[CFA-24]".
    assert_eq!(
        listed,
        [
            "0x1000..0x1040 frame-based, 8 below rbp: rbx, personality 1, lsda, bit 31",
            "0x1040..0x1100 frameless, 24 bytes: rbx r12, personality 0",
        ]
    );
}

#[test]
fn errors_are_reported() {
    let cut = image(|section| section.truncate(20));
    let failure = cut.frozen_in(0x1000).unwrap_err();
    let error = match failure {
        Failure::Section(_, error) => error,
        _ => panic!("{failure}"),
    };
    assert_eq!(error, ReadError::Header.into());
    assert_eq!(advice(&error), "ask for the section again");
    // Changed: the errors' text. It was "Read error: Could not read CompactUnwindInfoHeader: Could not
    // read CompactUnwindInfoHeader", since the original's error prints its source's text too.
    assert_eq!(
        chain(&failure),
        "calc can't be read: refused 1: the header lies outside the section"
    );
    // Changed: what was read is in the variant alone. It was also `source()`, as a `ReadError`.
    assert!(matches!(error, Error::ReadError(ReadError::Header)));
    let boxed = cut.listed().unwrap_err();
    assert!(matches!(boxed.downcast_ref(), Some(Error::ReadError(_))));
    let kind = image(|section| section[56] = 4);
    let failure = kind.frozen_in(0x1000).unwrap_err();
    // Changed: the same; it was "Invalid page kind".
    assert_eq!(
        chain(&failure),
        "calc can't be read: refused 6: a page's kind is unknown"
    );
}
