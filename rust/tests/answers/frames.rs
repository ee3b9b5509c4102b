//! Rules, steps, and the call that does a lookup and a step.

use crate::inputs::s;
use crate::sections::{broken, s_with};
use macho_unwind_info::frames::{
    step_arm64, step_x86_64, CfaRegister, RegistersArm64, RegistersX86_64, RuleArm64, RuleX86_64,
    Slot, Unwound,
};
use macho_unwind_info::opcodes::decode_permutation_6;
use macho_unwind_info::{Error, ReadError, Refusal, UnwindError, UnwindInfo};
use Slot::{Absent, BelowCfa};

/// The worked example P12 (docs/FORMAT.md, 13.1): a window from 0x7000 to 0x7018 with rbx, rbp and
/// the return address.
const P12: u32 = 0x0101_0001;
const BASE: u64 = 0x7000;

fn window() -> Vec<u8> {
    slots(&[0xb0b, 0x7777, 0x5005])
}

fn slots(numbers: &[u64]) -> Vec<u8> {
    numbers.iter().flat_map(|n| n.to_le_bytes()).collect()
}

const X86_64: RegistersX86_64 = RegistersX86_64 {
    rip: 0x401,
    rsp: 0x7000,
    saved: [0xb, 0x12, 0x13, 0x14, 0x15, 0x7008],
};

/// The registers that P12's window gives.
const P12_CALLER: RegistersX86_64 = RegistersX86_64 {
    rip: 0x5005,
    rsp: 0x7018,
    saved: [0xb0b, 0x12, 0x13, 0x14, 0x15, 0x7777],
};

/// Every register has a number of its own, but for x29.
fn arm64(x29: u64) -> RegistersArm64 {
    let mut saved = [0; 20];
    for (register, number) in saved.iter_mut().zip(0x1900..) {
        *register = number;
    }
    saved[RegistersArm64::X29] = x29;
    RegistersArm64 {
        pc: 0x401,
        sp: 0x8ff0,
        saved,
    }
}

const DWARF: Refusal = Refusal::Dwarf {
    eh_frame_fde: 0xab_cdef,
};

/// Words that no window helps.
const REFUSED_X86_64: [(u32, Refusal); 13] = [
    (0xf0ff_ffff, Refusal::Null),
    (0x04ab_cdef, DWARF),
    (0x0501_0001, Refusal::UnrecognizedKind(5)),
    (0xffff_ffff, Refusal::UnrecognizedKind(15)),
    (0x02ff_1ad0, Refusal::InvalidFrameless),
    (0x0300_0406, Refusal::InvalidFrameless),
    (0x0202_0800, Refusal::NotSound),
    (0x0101_0006, Refusal::NotSound),
    (0x0100_0007, Refusal::NotSound),
    (0x0101_0007, Refusal::NotSound),
    (0x41ff_7fff, Refusal::NotSound),
    (0x0102_0009, Refusal::NotSound),
    (0x0300_0405, Refusal::FramelessIndirect),
];

const REFUSED_ARM64: [(u32, Refusal); 3] = [
    (0x0000_0101, Refusal::Null),
    (0xf3ab_cdef, DWARF),
    (0x0100_0101, Refusal::UnrecognizedKind(1)),
];

#[test]
fn refusals_have_their_numbers_and_values() {
    for (refusal, number, value) in [
        (Refusal::Null, 20, 0),
        (DWARF, 21, 0xab_cdef),
        (Refusal::UnrecognizedKind(5), 22, 5),
        (Refusal::InvalidFrameless, 23, 0),
        (Refusal::NotSound, 24, 0),
        (Refusal::FramelessIndirect, 25, 0),
        (Refusal::AboveAddresses, 26, 0),
        (Refusal::OutsideWindow, 27, 0),
    ] {
        assert_eq!((refusal.number(), refusal.value()), (number, value));
        let error = UnwindError::Step { refusal, probes: 3 };
        assert_eq!(
            (error.number(), error.value(), error.probes()),
            (number, value, 3)
        );
    }
}

#[test]
fn rules_say_where_registers_lie() {
    let rule = RuleX86_64::parse(P12).unwrap();
    assert_eq!(rule.cfa_register, CfaRegister::FramePointer);
    assert_eq!(rule.cfa_distance, 16);
    assert_eq!(
        rule.slots,
        [BelowCfa(24), Absent, Absent, Absent, Absent, BelowCfa(16)]
    );

    let rule = RuleX86_64::parse(0x0203_0800).unwrap();
    assert_eq!(rule.cfa_register, CfaRegister::StackPointer);
    assert_eq!(rule.cfa_distance, 24);
    assert_eq!(
        rule.slots,
        [BelowCfa(24), BelowCfa(16), Absent, Absent, Absent, Absent]
    );

    let rule = RuleArm64::parse(0x0400_0101).unwrap();
    assert_eq!(rule.cfa_register, CfaRegister::FramePointer);
    assert_eq!(rule.cfa_distance, 16);
    let mut slots = [Absent; 20];
    slots[..2].copy_from_slice(&[BelowCfa(24), BelowCfa(32)]);
    slots[RegistersArm64::X29] = BelowCfa(16);
    slots[RegistersArm64::X30] = BelowCfa(8);
    slots[RegistersArm64::D8..][..2].copy_from_slice(&[BelowCfa(40), BelowCfa(48)]);
    assert_eq!(rule.slots, slots);

    let rule = RuleArm64::parse(0x02ff_f000).unwrap();
    assert_eq!(rule.cfa_register, CfaRegister::StackPointer);
    assert_eq!((rule.cfa_distance, rule.slots), (65_520, [Absent; 20]));
}

/// A second account of a frame-based word's rule: its slots, if each field is absent or one of rbx
/// to r15, none twice, and has its slot below rbp.
fn slots_of(low: u32, offset: u32) -> Option<[Slot; 6]> {
    let mut slots = [Absent; 6];
    slots[RegistersX86_64::RBP] = BelowCfa(16);
    for k in 0..5 {
        let register = match low / 8_u32.pow(k) % 8 {
            0 => continue,
            field => field as usize - 1,
        };
        if register >= RegistersX86_64::RBP || slots[register] != Absent || 8 * k >= offset {
            return None;
        }
        slots[register] = BelowCfa((16 + offset - 8 * k) as u16);
    }
    Some(slots)
}

/// Every combination of fields, at six offsets.
#[test]
fn rules_refuse_unknown_fields_and_no_absent_ones() {
    let (mut ruled, mut refused) = (0, 0);
    for low in 0..0x8000 {
        for eighth in [0, 1, 2, 4, 5, 255] {
            let word = 0x0100_0000 | eighth << 16 | low;
            let expected = match slots_of(low, 8 * eighth) {
                Some(slots) => {
                    ruled += 1;
                    Ok(RuleX86_64 {
                        cfa_register: CfaRegister::FramePointer,
                        cfa_distance: 16,
                        slots,
                    })
                }
                None => {
                    refused += 1;
                    Err(Refusal::NotSound)
                }
            };
            assert_eq!(RuleX86_64::parse(word), expected, "{word:#010x}");
        }
    }
    // At 5 eighths and more: k of five registers at k of five places, 1,546 in all.
    assert_eq!(ruled, 1 + 6 + 31 + 501 + 2 * 1_546);
    assert_eq!(ruled + refused, 6 * 0x8000);
}

/// All permutations: a register that is listed has a slot, and no other has.
#[test]
fn frameless_rules_have_the_slots_listed() {
    for low in 0..0x2000 {
        let word = 0x0209_0000 | low;
        let rule = RuleX86_64::parse(word);
        let listed = match decode_permutation_6(low >> 10, low & 0x3ff) {
            Ok(listed) => listed,
            Err(_) => {
                assert_eq!(rule, Err(Refusal::InvalidFrameless), "{word:#010x}");
                continue;
            }
        };
        for (n, slot) in (1..).zip(rule.unwrap().slots) {
            assert_eq!(slot != Absent, listed.contains(&n), "{word:#010x}");
        }
    }
}

/// All pairs: those that are marked have slots, x29 and x30 too, and nothing else has.
#[test]
fn arm64_rules_have_the_slots_marked() {
    for low in 0..0x1000_u32 {
        let slots = RuleArm64::parse(0x0400_0000 | low).unwrap().slots;
        for (place, slot) in slots.into_iter().enumerate() {
            let expected = match place {
                0..=9 => low >> (place / 2) & 1 == 1,
                10 | 11 => true,
                _ => low >> (place / 2 + 2) & 1 == 1,
            };
            assert_eq!(slot != Absent, expected, "{low:#x} {place}");
        }
        let frameless = RuleArm64::parse(0x0200_0000 | low).unwrap();
        assert_eq!(frameless.slots, [Absent; 20]);
    }
}

/// x19 to x28, x29 and x30, d8 to d15, as [`RegistersArm64::saved`] has them.
#[test]
fn arm64_pairs_lie_in_their_order() {
    let number = |slot| match slot {
        Absent => 0,
        BelowCfa(distance) => distance,
    };
    let below = |word| {
        let below = RuleArm64::parse(word).unwrap().slots.map(number);
        let (x, rest) = below.split_at(RegistersArm64::X29);
        let (frame, d) = rest.split_at(2);
        assert_eq!(frame, [16, 8], "{word:#010x}");
        (x.to_vec(), d.to_vec())
    };
    let none = (vec![0; 10], vec![0; 8]);
    assert_eq!(
        below(0x0400_0f1f),
        (
            vec![24, 32, 40, 48, 56, 64, 72, 80, 88, 96],
            vec![104, 112, 120, 128, 136, 144, 152, 160]
        )
    );
    assert_eq!(
        below(0x0400_0e01),
        (
            vec![24, 32, 0, 0, 0, 0, 0, 0, 0, 0],
            vec![0, 0, 40, 48, 56, 64, 72, 80]
        )
    );
    assert_eq!(
        below(0x0400_0512),
        (
            vec![0, 0, 24, 32, 0, 0, 0, 0, 40, 48],
            vec![56, 64, 0, 0, 72, 80, 0, 0]
        )
    );
    for word in [0x0400_0000, 0x0400_00e0, 0xf4ff_f0e0] {
        assert_eq!(below(word), none, "{word:#010x}");
    }
}

#[test]
fn words_without_a_frame_are_refused() {
    let window = window();
    for (word, refusal) in REFUSED_X86_64 {
        assert_eq!(RuleX86_64::parse(word), Err(refusal), "{word:#010x}");
        let step = step_x86_64(word, X86_64, BASE, &window);
        assert_eq!(step, Err(refusal), "{word:#010x}");
    }
    for (word, refusal) in REFUSED_ARM64 {
        assert_eq!(RuleArm64::parse(word), Err(refusal), "{word:#010x}");
        let step = step_arm64(word, arm64(0x7008), BASE, &window);
        assert_eq!(step, Err(refusal), "{word:#010x}");
    }
    let text = "refused 21: the frame is in __eh_frame, at 0xabcdef";
    assert_eq!(DWARF.to_string(), text);
}

#[test]
fn p12_reads_its_three_slots() {
    let window = window();
    assert_eq!(step_x86_64(P12, X86_64, BASE, &window), Ok(P12_CALLER));
    let shorter = step_x86_64(P12, X86_64, BASE, &window[..23]);
    assert_eq!(shorter, Err(Refusal::OutsideWindow));
    let later = step_x86_64(P12, X86_64, BASE + 1, &window[1..]);
    assert_eq!(later, Err(Refusal::OutsideWindow));
    let without = step_x86_64(P12, X86_64, BASE, &[]);
    assert_eq!(without, Err(Refusal::OutsideWindow));
}

#[test]
fn nothing_ends_above_the_last_address() {
    // The return address alone, at the stack pointer.
    let word = 0x0201_0000;
    let rsp = u64::MAX - 8;
    let registers = RegistersX86_64 { rsp, ..X86_64 };
    let caller = step_x86_64(word, registers, rsp, &slots(&[0x5005])).unwrap();
    assert_eq!((caller.rip, caller.rsp), (0x5005, u64::MAX));

    let longer = step_x86_64(word, registers, rsp, &[0; 9]);
    assert_eq!(longer, Err(Refusal::AboveAddresses));
    let rsp = u64::MAX - 7;
    let higher = step_x86_64(word, RegistersX86_64 { rsp, ..X86_64 }, 0, &[]);
    assert_eq!(higher, Err(Refusal::AboveAddresses));

    // arm64's frameless word reads no slot, but looks at the window's end.
    let registers = arm64(0);
    let step = |base, window| step_arm64(0x0200_0000, registers, base, window);
    assert!(step(u64::MAX, &[]).is_ok());
    assert_eq!(step(u64::MAX, &[0]), Err(Refusal::AboveAddresses));
}

#[test]
fn arm64_steps() {
    // d9, d8, x20 and x19 below x29 and x30.
    let window = slots(&[0xd9, 0xd8, 0x20, 0x19, 0x7777, 0x5005]);
    let registers = arm64(BASE + 32);
    let mut caller = registers;
    caller.pc = 0x5005;
    caller.sp = BASE + 48;
    caller.saved[..2].copy_from_slice(&[0x19, 0x20]);
    caller.saved[RegistersArm64::X29] = 0x7777;
    caller.saved[RegistersArm64::X30] = 0x5005;
    caller.saved[RegistersArm64::D8..][..2].copy_from_slice(&[0xd8, 0xd9]);
    let step = |window: &[u8]| step_arm64(0x0400_0101, registers, BASE, window);
    assert_eq!(step(&window), Ok(caller));
    assert_eq!(step(&window[..47]), Err(Refusal::OutsideWindow));

    // Frameless: x30 is the return address, and no slot is read.
    let caller = step_arm64(0x0200_1000, registers, 0, &[]).unwrap();
    assert_eq!((caller.pc, caller.sp), (0x190b, 0x9000));
    assert_eq!(caller.saved, registers.saved);
}

#[test]
fn the_combined_call_steps_by_the_word_found() {
    let (s, window) = (s(), window());
    let info = UnwindInfo::parse(&s).unwrap();
    // P12's word, then that of two pushed registers.
    for address in [0x1000, 0x103f, 0x1040, 0x10ff] {
        let found = info.lookup_with_probes(address);
        let opcode = found.function().unwrap().unwrap().opcode;
        let unwound = info.unwind_x86_64(address, X86_64, BASE, &window).unwrap();
        assert_eq!(
            Ok(unwound.registers),
            step_x86_64(opcode, X86_64, BASE, &window)
        );
        assert_eq!(unwound.probes, found.probes());
    }
    assert_eq!(
        info.unwind_x86_64(0x1010, X86_64, BASE, &window),
        Ok(Unwound {
            registers: P12_CALLER,
            probes: 4
        })
    );

    let s = s_with(&[(28, 0x0400_0000)]);
    let info = UnwindInfo::parse(&s).unwrap();
    let unwound = info
        .unwind_arm64(0x1010, arm64(0x7008), BASE, &window)
        .unwrap();
    let caller = step_arm64(0x0400_0000, arm64(0x7008), BASE, &window).unwrap();
    assert_eq!((unwound.registers, unwound.probes), (caller, 4));
    assert_eq!((caller.pc, caller.sp), (0x5005, 0x7018));
}

fn refused_x86_64(section: &[u8], address: u32, base: u64, window: &[u8]) -> UnwindError {
    let info = UnwindInfo::parse(section).unwrap();
    info.unwind_x86_64(address, X86_64, base, window)
        .unwrap_err()
}

fn refused_arm64(section: &[u8], address: u32, base: u64, window: &[u8]) -> UnwindError {
    let info = UnwindInfo::parse(section).unwrap();
    info.unwind_arm64(address, arm64(0x7008), base, window)
        .unwrap_err()
}

#[test]
fn the_combined_call_passes_a_lookups_error_on() {
    let window = window();
    for (error, section, address) in broken() {
        let info = UnwindInfo::parse(&section).unwrap();
        let probes = info.lookup_with_probes(address).probes();
        let expected = UnwindError::Lookup { error, probes };
        assert_eq!((expected.number(), expected.value()), (error.number(), 0));
        assert_eq!(expected.probes(), probes);
        assert_eq!(refused_x86_64(&section, address, BASE, &window), expected);
        assert_eq!(refused_arm64(&section, address, BASE, &window), expected);
    }
}

#[test]
fn the_combined_call_refuses_with_20_where_the_lookup_says_none() {
    let (s, window) = (s(), window());
    for (address, probes) in [(0x0fff, 2), (0x1100, 1)] {
        let expected = UnwindError::Step {
            refusal: Refusal::Null,
            probes,
        };
        assert_eq!(refused_x86_64(&s, address, BASE, &window), expected);
        assert_eq!(refused_arm64(&s, address, BASE, &window), expected);
    }
}

#[test]
fn the_combined_call_passes_a_steps_refusal_on() {
    let passed = |refusal| UnwindError::Step { refusal, probes: 4 };
    let window = window();
    for (word, refusal) in REFUSED_X86_64 {
        let section = s_with(&[(28, word)]);
        let error = refused_x86_64(&section, 0x1000, BASE, &window);
        assert_eq!(error, passed(refusal), "{word:#010x}");
    }
    for (word, refusal) in REFUSED_ARM64 {
        let section = s_with(&[(28, word)]);
        let error = refused_arm64(&section, 0x1000, BASE, &window);
        assert_eq!(error, passed(refusal), "{word:#010x}");
    }
    let [x86_64, arm64] = [P12, 0x0400_0000].map(|word| s_with(&[(28, word)]));
    for (refusal, base, window) in [
        (Refusal::AboveAddresses, u64::MAX, &window[..]),
        (Refusal::OutsideWindow, BASE, &window[..23]),
    ] {
        let error = refused_x86_64(&x86_64, 0x1000, base, window);
        assert_eq!(error, passed(refusal));
        let error = refused_arm64(&arm64, 0x1000, base, window);
        assert_eq!(error, passed(refusal));
    }
}

/// The text is that of the lookup's error or the step's refusal, and ends the chain: a report that
/// prints an error with its sources says each thing once.
#[test]
fn an_unwind_errors_text_is_whole() {
    let error = refused_x86_64(&s(), 0x1100, BASE, &window());
    let text = "refused 20: there is no word, or a null one";
    assert_eq!(error.to_string(), text);
    assert_eq!(error.to_string(), Refusal::Null.to_string());
    assert!(std::error::Error::source(&error).is_none());

    let error = refused_x86_64(&s()[..79], 0x1040, BASE, &window());
    let inner = Error::ReadError(ReadError::LocalOpcodes);
    let text = "refused 11: a compressed page's local opcodes lie outside the section";
    assert_eq!(
        (error.to_string(), inner.to_string()),
        (text.into(), text.into())
    );
    assert!(std::error::Error::source(&error).is_none());
    assert!(std::error::Error::source(&inner).is_none());
}
