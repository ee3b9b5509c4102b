//! Every public item of the original but those in the crate's table of what it lacks, with its
//! signature and its traits. This file compiles against the original as well: where a type is
//! another one here, which the table says too, it is left open.

#![forbid(unsafe_code)]

use macho_unwind_info::opcodes::{OpcodeArm64, OpcodeBitfield, OpcodeX86_64, RegisterNameX86_64};
use macho_unwind_info::{Error, Function, FunctionIter, ReadError, UnwindInfo};
use std::fmt::{Debug, Display};
use std::hash::Hash;
use std::ops::Range;
use std::panic::{RefUnwindSafe, UnwindSafe};

#[test]
fn functions_have_the_originals_signatures() {
    fn of_a_section<'a>(_: &'a [u8]) {
        let _: fn(&'a [u8]) -> Result<UnwindInfo<'a>, Error> = UnwindInfo::parse;
        let _: fn(&UnwindInfo<'a>) -> FunctionIter<'a> = UnwindInfo::functions;
        let _: fn(&UnwindInfo<'a>) -> Range<u32> = UnwindInfo::address_range;
        let _: fn(&UnwindInfo<'a>, u32) -> Result<Option<Function>, Error> = UnwindInfo::lookup;
        let _: fn(&mut FunctionIter<'a>) -> Result<Option<Function>, Error> = FunctionIter::next;
    }
    of_a_section(&[]);
    let _: fn(u32) -> OpcodeX86_64 = OpcodeX86_64::parse;
    let _: fn(u32) -> OpcodeArm64 = OpcodeArm64::parse;
    // What it gives is no `Option` here.
    let _: fn(u8) -> _ = RegisterNameX86_64::parse;
    let _: fn(&RegisterNameX86_64) -> &'static str = RegisterNameX86_64::dwarf_name;
    let _: fn(u32) -> OpcodeBitfield = OpcodeBitfield::new;
    let _: fn(&OpcodeBitfield) -> bool = OpcodeBitfield::is_function_start;
    let _: fn(&OpcodeBitfield) -> bool = OpcodeBitfield::has_lsda;
    let _: fn(&OpcodeBitfield) -> u8 = OpcodeBitfield::personality_index;
    let _: fn(&OpcodeBitfield) -> u8 = OpcodeBitfield::kind;
    let _: fn(&OpcodeBitfield) -> u32 = OpcodeBitfield::specific_bits;
    let _: u32 = OpcodeBitfield(0).0;
}

#[test]
fn types_have_the_originals_traits() {
    fn shared<T: Send + Sync + Unpin + UnwindSafe + RefUnwindSafe>() {}
    fn compared<T: Clone + Debug + Eq>() {}
    fn copied<T: Copy + Debug + Eq>() {}
    fn hashed<T: Hash>() {}
    fn printed<T: Display>() {}
    fn raised<T: std::error::Error + 'static>() {}
    fn converted<T, U: From<T>>() {}

    shared::<UnwindInfo>();
    shared::<FunctionIter>();
    shared::<Error>();
    compared::<Function>();
    hashed::<Function>();
    copied::<Error>();
    copied::<ReadError>();
    raised::<Error>();
    raised::<ReadError>();
    converted::<ReadError, Error>();
    compared::<OpcodeX86_64>();
    printed::<OpcodeX86_64>();
    copied::<OpcodeArm64>();
    printed::<OpcodeArm64>();
    copied::<RegisterNameX86_64>();
    converted::<u32, OpcodeBitfield>();
    println!("{:?}", OpcodeBitfield(0));
}

/// Without an arm for any other variant, but for `Error`, which has three more here.
#[test]
fn variants_and_fields_have_the_originals_names_and_types() {
    fn x86_64(opcode: OpcodeX86_64) {
        let _: ([Option<RegisterNameX86_64>; 6], u8) = match opcode {
            OpcodeX86_64::FramelessIndirect {
                immediate_offset_from_function_start,
                stack_adjust_in_bytes,
                saved_regs,
            } => {
                let _: u8 = immediate_offset_from_function_start;
                (saved_regs, stack_adjust_in_bytes)
            }
            OpcodeX86_64::FramelessImmediate {
                stack_size_in_bytes,
                saved_regs,
            } => (saved_regs, u16::to_le_bytes(stack_size_in_bytes)[0]),
            // The five are no `Option`s here.
            OpcodeX86_64::FrameBased {
                stack_offset_in_bytes,
                saved_regs: [_, _, _, _, _],
            } => ([None; 6], u16::to_le_bytes(stack_offset_in_bytes)[0]),
            OpcodeX86_64::Dwarf { eh_frame_fde } => ([None; 6], u32::to_le_bytes(eh_frame_fde)[0]),
            OpcodeX86_64::UnrecognizedKind(kind) => ([None; 6], kind),
            OpcodeX86_64::InvalidFrameless | OpcodeX86_64::Null => ([None; 6], 0),
        };
    }
    fn arm64(opcode: OpcodeArm64) {
        let _: ([bool; 9], u8) = match opcode {
            OpcodeArm64::FrameBased {
                saved_reg_pair_count,
                d14_and_d15_saved: a,
                d12_and_d13_saved: b,
                d10_and_d11_saved: c,
                d8_and_d9_saved: d,
                x27_and_x28_saved: e,
                x25_and_x26_saved: f,
                x23_and_x24_saved: g,
                x21_and_x22_saved: h,
                x19_and_x20_saved: i,
            } => ([a, b, c, d, e, f, g, h, i], saved_reg_pair_count),
            OpcodeArm64::Frameless {
                stack_size_in_bytes,
            } => ([false; 9], u16::to_le_bytes(stack_size_in_bytes)[0]),
            OpcodeArm64::Dwarf { eh_frame_fde } => ([false; 9], u32::to_le_bytes(eh_frame_fde)[0]),
            OpcodeArm64::UnrecognizedKind(kind) => ([false; 9], kind),
            OpcodeArm64::Null => ([false; 9], 0),
        };
    }
    fn register(name: RegisterNameX86_64) {
        match name {
            RegisterNameX86_64::Rbx
            | RegisterNameX86_64::R12
            | RegisterNameX86_64::R13
            | RegisterNameX86_64::R14
            | RegisterNameX86_64::R15
            | RegisterNameX86_64::Rbp => {}
        }
    }
    fn read_error(error: ReadError) {
        match error {
            ReadError::Header
            | ReadError::GlobalOpcodes
            | ReadError::Pages
            | ReadError::RegularPage
            | ReadError::RegularPageFunctions
            | ReadError::CompressedPage
            | ReadError::CompressedPageFunctions
            | ReadError::LocalOpcodes
            | ReadError::PageKind => {}
        }
    }
    // It has three more fields here.
    fn function(function: Function) -> [u32; 3] {
        let Function {
            start_address,
            end_address,
            opcode,
            ..
        } = function;
        [start_address, end_address, opcode]
    }
    x86_64(OpcodeX86_64::Null);
    arm64(OpcodeArm64::Null);
    register(RegisterNameX86_64::Rbx);
    for error in [
        Error::ReadError(ReadError::Header),
        Error::InvalidPageEntryFirstAddress,
        Error::InvalidPageKind,
        Error::UnexpectedSentinelPage,
    ] {
        if let Error::ReadError(error) = error {
            read_error(error);
        }
    }
    let _: fn(Function) -> [u32; 3] = function;
}
