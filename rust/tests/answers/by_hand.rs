//! Steps written by hand over the words' variants, as users of the original have them but for the
//! fields of frame-based words, beside the crate's own.

use crate::inputs::Random;
use macho_unwind_info::frames::{
    step_arm64, step_x86_64, RegistersArm64, RegistersX86_64, RuleX86_64,
};
use macho_unwind_info::opcodes::{Named, OpcodeArm64, OpcodeX86_64, RegisterNameX86_64};

const WORDS: usize = 100_000;
const BASE: u64 = 0x7000_0000;
const SLOTS: u64 = 300;

/// Where both machines' frames end.
const CFA: u64 = BASE + 8 * SLOTS;

fn x86_64_by_hand(opcode: u32, registers: RegistersX86_64, window: &[u8]) -> RegistersX86_64 {
    let mut caller = registers;
    let mut set = |register: RegisterNameX86_64, value| {
        let place = match register {
            RegisterNameX86_64::Rbx => RegistersX86_64::RBX,
            RegisterNameX86_64::R12 => RegistersX86_64::R12,
            RegisterNameX86_64::R13 => RegistersX86_64::R13,
            RegisterNameX86_64::R14 => RegistersX86_64::R14,
            RegisterNameX86_64::R15 => RegistersX86_64::R15,
            RegisterNameX86_64::Rbp => RegistersX86_64::RBP,
        };
        caller.saved[place] = value;
    };
    let cfa = match OpcodeX86_64::parse(opcode) {
        OpcodeX86_64::FrameBased {
            stack_offset_in_bytes,
            saved_regs,
        } => {
            let rbp = registers.saved[RegistersX86_64::RBP];
            let mut address = rbp - u64::from(stack_offset_in_bytes);
            for field in saved_regs {
                match field {
                    Named::Absent => {}
                    Named::Register(register) => set(register, load(window, address)),
                    Named::Unknown(number) => panic!("{opcode:#010x}: {number}"),
                }
                address += 8;
            }
            set(RegisterNameX86_64::Rbp, load(window, rbp));
            rbp + 16
        }
        OpcodeX86_64::FramelessImmediate {
            stack_size_in_bytes,
            saved_regs,
        } => {
            let cfa = registers.rsp + u64::from(stack_size_in_bytes);
            let mut address = cfa - 16;
            for register in saved_regs.iter().rev().flatten() {
                set(*register, load(window, address));
                address -= 8;
            }
            cfa
        }
        other => panic!("{other}"),
    };
    caller.rip = load(window, cfa - 8);
    caller.rsp = cfa;
    caller
}

fn arm64_by_hand(opcode: u32, registers: RegistersArm64, window: &[u8]) -> RegistersArm64 {
    let mut caller = registers;
    match OpcodeArm64::parse(opcode) {
        OpcodeArm64::Frameless {
            stack_size_in_bytes,
        } => {
            caller.pc = registers.saved[RegistersArm64::X30];
            caller.sp += u64::from(stack_size_in_bytes);
        }
        OpcodeArm64::FrameBased {
            saved_reg_pair_count,
            d14_and_d15_saved,
            d12_and_d13_saved,
            d10_and_d11_saved,
            d8_and_d9_saved,
            x27_and_x28_saved,
            x25_and_x26_saved,
            x23_and_x24_saved,
            x21_and_x22_saved,
            x19_and_x20_saved,
        } => {
            let x29 = registers.saved[RegistersArm64::X29];
            let mut address = x29;
            for (saved, register) in [
                (x19_and_x20_saved, RegistersArm64::X19),
                (x21_and_x22_saved, RegistersArm64::X19 + 2),
                (x23_and_x24_saved, RegistersArm64::X19 + 4),
                (x25_and_x26_saved, RegistersArm64::X19 + 6),
                (x27_and_x28_saved, RegistersArm64::X19 + 8),
                (d8_and_d9_saved, RegistersArm64::D8),
                (d10_and_d11_saved, RegistersArm64::D8 + 2),
                (d12_and_d13_saved, RegistersArm64::D8 + 4),
                (d14_and_d15_saved, RegistersArm64::D8 + 6),
            ] {
                if saved {
                    caller.saved[register] = load(window, address - 8);
                    caller.saved[register + 1] = load(window, address - 16);
                    address -= 16;
                }
            }
            assert_eq!(x29 - address, 16 * u64::from(saved_reg_pair_count));
            caller.saved[RegistersArm64::X29] = load(window, x29);
            caller.saved[RegistersArm64::X30] = load(window, x29 + 8);
            caller.pc = load(window, x29 + 8);
            caller.sp = x29 + 16;
        }
        other => panic!("{other}"),
    }
    caller
}

fn load(window: &[u8], address: u64) -> u64 {
    let at = (address - BASE) as usize;
    let mut slot = [0; 8];
    slot.copy_from_slice(&window[at..at + 8]);
    u64::from_le_bytes(slot)
}

fn long(random: &mut Random) -> u64 {
    u64::from(random.next()) << 32 | u64::from(random.next())
}

/// No two slots have the same number.
fn random_window(random: &mut Random) -> Vec<u8> {
    (0..SLOTS)
        .flat_map(|_| long(random).to_le_bytes())
        .collect()
}

#[test]
fn x86_64_steps_are_those_written_by_hand() {
    let mut random = Random::new(4);
    let window = random_window(&mut random);
    let (mut frame_based, mut frameless) = (0, 0);
    for i in 0..WORDS {
        let opcode = random.next() & 0xf0ff_ffff | [0x0100_0000, 0x0200_0000][i % 2];
        if RuleX86_64::parse(opcode).is_err() {
            continue;
        }
        let mut registers = RegistersX86_64 {
            rip: long(&mut random),
            rsp: CFA - u64::from(opcode >> 16 & 0xff) * 8,
            saved: [(); 6].map(|()| long(&mut random)),
        };
        if opcode >> 24 & 0b1111 == 1 {
            registers.saved[RegistersX86_64::RBP] = CFA - 16;
            frame_based += 1;
        } else {
            frameless += 1;
        }
        let caller = step_x86_64(opcode, registers, BASE, &window);
        let expected = x86_64_by_hand(opcode, registers, &window);
        assert_eq!(caller, Ok(expected), "{opcode:#010x}");
    }
    assert!(
        frame_based > 500 && frameless > 5_000,
        "{frame_based} {frameless}"
    );
}

#[test]
fn arm64_steps_are_those_written_by_hand() {
    let mut random = Random::new(5);
    let window = random_window(&mut random);
    for i in 0..WORDS {
        let opcode = random.next() & 0xf0ff_ffff | [0x0200_0000, 0x0400_0000][i % 2];
        let mut registers = RegistersArm64 {
            pc: long(&mut random),
            sp: CFA,
            saved: [(); 20].map(|()| long(&mut random)),
        };
        registers.saved[RegistersArm64::X29] = CFA - 16;
        let caller = step_arm64(opcode, registers, BASE, &window);
        let expected = arm64_by_hand(opcode, registers, &window);
        assert_eq!(caller, Ok(expected), "{opcode:#010x}");
    }
}
