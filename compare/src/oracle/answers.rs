// Stands in the module of each release, after its `macho`, `permutation`, `reader` and `NAME`:
// the two releases' types have the same names but are not the same.

use super::told::{Register, WordX86_64};
use super::Release;
use crate::ffi;
use macho::opcodes::{OpcodeArm64, OpcodeBitfield, OpcodeX86_64, RegisterNameX86_64};
use macho::raw::{U16, U32};
use reader::Reader;

pub const RELEASE: Release = Release {
    name: NAME,
    decode_permutation_6,
    opcode_kind: |word| OpcodeBitfield::new(word).kind(),
    opcode_specific_bits: |word| OpcodeBitfield::new(word).specific_bits(),
    register_x86_64,
    parse_x86_64,
    parse_arm64,
    read_u16: |section, offset| {
        number(
            section
                .read_at(offset as u64)
                .map(|n: &U16| u16::from(*n).into()),
        )
    },
    read_u32: |section, offset| {
        number(
            section
                .read_at(offset as u64)
                .map(|n: &U32| u32::from(*n).into()),
        )
    },
    read_u64: |section, offset| {
        number(
            section
                .read_at(offset as u64)
                .map(|n| u64::from_le_bytes(*n)),
        )
    },
    is_granted: |section, offset, bytes| {
        section
            .read_slice_at::<u8>(offset as u64, bytes)
            .is_some()
            .into()
    },
};

fn decode_permutation_6(count: u32, encoding: u32) -> ffi::Permutation {
    match permutation::decode_permutation_6(count, encoding) {
        Ok(registers) => ffi::Permutation {
            refusal: 0,
            registers,
        },
        Err(()) => ffi::Permutation {
            refusal: ffi::PERMUTATION_REFUSED,
            registers: [0; 6],
        },
    }
}

/// The number in the name: "reg3" gives 3.
fn register_x86_64(n: u8) -> Option<Register> {
    let register = RegisterNameX86_64::parse(n)?;
    let digits = register.dwarf_name().strip_prefix("reg").unwrap();
    Some((number_of(register).into(), digits.parse().unwrap()))
}

fn parse_x86_64(word: u32) -> WordX86_64 {
    let none = WordX86_64::default();
    match OpcodeX86_64::parse(word) {
        OpcodeX86_64::Null => WordX86_64 { answer: 0, ..none },
        OpcodeX86_64::FrameBased {
            stack_offset_in_bytes,
            saved_regs: [r0, r1, r2, r3, r4],
        } => WordX86_64 {
            answer: 1,
            value: stack_offset_in_bytes.into(),
            // The Rust lists the word's highest field first.
            fields: numbers([r4, r3, r2, r1, r0]),
            ..none
        },
        OpcodeX86_64::FramelessImmediate {
            stack_size_in_bytes,
            saved_regs,
        } => WordX86_64 {
            answer: 2,
            value: stack_size_in_bytes.into(),
            popped_regs: numbers(saved_regs),
            ..none
        },
        OpcodeX86_64::FramelessIndirect {
            immediate_offset_from_function_start,
            stack_adjust_in_bytes,
            saved_regs,
        } => WordX86_64 {
            answer: 3,
            value: immediate_offset_from_function_start.into(),
            stack_adjust_in_bytes,
            popped_regs: numbers(saved_regs),
            ..none
        },
        OpcodeX86_64::Dwarf { eh_frame_fde } => WordX86_64 {
            answer: 4,
            value: eh_frame_fde,
            ..none
        },
        OpcodeX86_64::InvalidFrameless => WordX86_64 { answer: 5, ..none },
        OpcodeX86_64::UnrecognizedKind(kind) => WordX86_64 {
            answer: 6,
            value: kind.into(),
            ..none
        },
    }
}

fn numbers<const N: usize>(registers: [Option<RegisterNameX86_64>; N]) -> [Option<u8>; N] {
    registers.map(|register| register.map(number_of))
}

fn number_of(register: RegisterNameX86_64) -> u8 {
    match register {
        RegisterNameX86_64::Rbx => 1,
        RegisterNameX86_64::R12 => 2,
        RegisterNameX86_64::R13 => 3,
        RegisterNameX86_64::R14 => 4,
        RegisterNameX86_64::R15 => 5,
        RegisterNameX86_64::Rbp => 6,
    }
}

fn parse_arm64(word: u32) -> ffi::OpcodeArm64 {
    let none = ffi::OpcodeArm64::default();
    match OpcodeArm64::parse(word) {
        OpcodeArm64::Null => ffi::OpcodeArm64 { answer: 0, ..none },
        OpcodeArm64::Frameless {
            stack_size_in_bytes,
        } => ffi::OpcodeArm64 {
            answer: 1,
            value: stack_size_in_bytes.into(),
            ..none
        },
        OpcodeArm64::Dwarf { eh_frame_fde } => ffi::OpcodeArm64 {
            answer: 2,
            value: eh_frame_fde,
            ..none
        },
        OpcodeArm64::FrameBased {
            saved_reg_pair_count,
            d14_and_d15_saved,
            d12_and_d13_saved,
            d10_and_d11_saved,
            d8_and_d9_saved,
            x27_and_x28_saved,
            x25_and_x26_saved,
            x23_and_x24_saved,
            x21_and_x22_saved,
            x19_and_x20_saved,
        } => ffi::OpcodeArm64 {
            answer: 3,
            saved_reg_pair_count,
            saved_pairs: [
                (x19_and_x20_saved, 0),
                (x21_and_x22_saved, 1),
                (x23_and_x24_saved, 2),
                (x25_and_x26_saved, 3),
                (x27_and_x28_saved, 4),
                (d8_and_d9_saved, 8),
                (d10_and_d11_saved, 9),
                (d12_and_d13_saved, 10),
                (d14_and_d15_saved, 11),
            ]
            .map(|(saved, bit)| u16::from(saved) << bit)
            .iter()
            .sum(),
            ..none
        },
        OpcodeArm64::UnrecognizedKind(kind) => ffi::OpcodeArm64 {
            answer: 4,
            value: kind.into(),
            ..none
        },
    }
}

fn number(read: Option<u64>) -> ffi::Number {
    match read {
        Some(value) => ffi::Number { granted: 1, value },
        None => ffi::Number::default(),
    }
}
