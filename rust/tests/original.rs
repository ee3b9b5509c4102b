//! Programs written for the original, from its documentation and its examples. Changed is only
//! what they read a file with, where they print to, and that they no longer ask for 32-bit words.

#![forbid(unsafe_code)]

fn s() -> Vec<u8> {
    std::fs::read(concat!(env!("CARGO_MANIFEST_DIR"), "/../sections/s.bin")).unwrap()
}

mod documentation {
    use macho_unwind_info::opcodes::OpcodeX86_64;
    use macho_unwind_info::UnwindInfo;

    pub fn example(data: &[u8]) -> Result<(), macho_unwind_info::Error> {
        let unwind_info = UnwindInfo::parse(data)?;

        if let Some(function) = unwind_info.lookup(0x1234)? {
            println!("Found function entry covering the address 0x1234:");
            let opcode = OpcodeX86_64::parse(function.opcode);
            println!(
                "0x{:08x}..0x{:08x}: {}",
                function.start_address, function.end_address, opcode
            );
        }
        Ok(())
    }
}

mod unwindinfodump {
    use std::{fmt::Display, io::Write};

    use macho_unwind_info::opcodes::{OpcodeArm64, OpcodeX86_64};
    use macho_unwind_info::UnwindInfo;

    #[derive(Clone, Copy)]
    pub enum Architecture {
        X86_64,
        Aarch64,
    }

    pub fn main(data: &[u8], arch: Architecture, out: &mut Vec<u8>) {
        let info = UnwindInfo::parse(data).unwrap();
        let address_range = info.address_range();
        writeln!(
            out,
            "Unwind info for address range 0x{:08x}-0x{:08x}",
            address_range.start, address_range.end
        )
        .unwrap();
        writeln!(out).unwrap();
        let mut function_iter = info.functions();
        while let Some(function) = function_iter.next().unwrap() {
            print_entry(function.start_address, function.opcode, arch, out);
        }
    }

    fn print_entry(address: u32, opcode: u32, arch: Architecture, out: &mut Vec<u8>) {
        match arch {
            Architecture::X86_64 => print_entry_impl(address, OpcodeX86_64::parse(opcode), out),
            Architecture::Aarch64 => print_entry_impl(address, OpcodeArm64::parse(opcode), out),
        }
    }

    fn print_entry_impl(address: u32, opcode: impl Display, out: &mut Vec<u8>) {
        writeln!(out, "0x{:08x}: {}", address, opcode).unwrap();
    }
}

mod unwindinfolookup {
    use macho_unwind_info::opcodes::OpcodeX86_64;
    use macho_unwind_info::UnwindInfo;

    pub fn main(data: &[u8], pc: u32) -> String {
        let unwind_info = UnwindInfo::parse(data).unwrap();
        let function = match unwind_info.lookup(pc) {
            Ok(Some(f)) => f,
            Ok(None) => {
                return format!("No entry was found for address 0x{:x}", pc);
            }
            Err(e) => {
                return format!(
                    "There was an error when looking up address 0x{:x}: {}",
                    pc, e
                );
            }
        };
        format!(
            "Found entry with function address 0x{:08x} and opcode {}",
            function.start_address,
            OpcodeX86_64::parse(function.opcode)
        )
    }
}

#[test]
fn the_example_of_the_documentation() {
    use macho_unwind_info::{Error, ReadError};

    let s = s();
    assert_eq!(documentation::example(&s), Ok(()));
    assert_eq!(
        documentation::example(&s[..20]),
        Err(Error::ReadError(ReadError::Header))
    );
    // The page covers the address from now on, and is of no known kind.
    let mut covering = s;
    covering[45] = 0x20;
    covering[56] = 0;
    assert_eq!(
        documentation::example(&covering),
        Err(Error::InvalidPageKind)
    );
}

#[test]
fn the_example_that_lists_all() {
    use unwindinfodump::{main, Architecture};

    let mut out = Vec::new();
    main(&s(), Architecture::X86_64, &mut out);
    assert_eq!(
        String::from_utf8(out).unwrap(),
        "Unwind info for address range 0x00001000-0x00001100\n\n\
         0x00001000: frame-based, 8 below rbp: rbx\n\
         0x00001040: frameless, 24 bytes: rbx r12\n"
    );
    let mut out = Vec::new();
    main(&s(), Architecture::Aarch64, &mut out);
    assert_eq!(
        String::from_utf8(out).unwrap(),
        "Unwind info for address range 0x00001000-0x00001100\n\n\
         0x00001000: unknown kind 1\n\
         0x00001040: frameless, 768 bytes\n"
    );
}

#[test]
fn the_example_that_looks_up() {
    use unwindinfolookup::main;

    assert_eq!(
        main(&s(), 0x1041),
        "Found entry with function address 0x00001040 and opcode frameless, 24 bytes: rbx r12"
    );
    assert_eq!(main(&s(), 0x1100), "No entry was found for address 0x1100");
    assert_eq!(
        main(&s()[..79], 0x1041),
        "There was an error when looking up address 0x1041: \
         refused 11: a compressed page's local opcodes lie outside the section"
    );
}
