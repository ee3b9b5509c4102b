//! Opcode words and permutations.

use crate::inputs::Random;
use macho_unwind_info::opcodes::{
    decode_permutation_6, encode_permutation_6, Named, OpcodeArm64, OpcodeBitfield, OpcodeX86_64,
    RegisterNameX86_64,
};
use macho_unwind_info::PermutationError;
use std::collections::HashSet;
use Named::{Absent, Register, Unknown};
use RegisterNameX86_64::*;

const RANDOM_WORDS: usize = 200_000;

/// Words of every kind, in equal shares.
fn random_words() -> impl Iterator<Item = u32> {
    let mut random = Random::new(3);
    (0..RANDOM_WORDS).map(move |i| random.next() & 0xf0ff_ffff | (i as u32 % 16) << 24)
}

#[test]
fn the_words_of_s() {
    assert_eq!(
        OpcodeX86_64::parse(0x0101_0001),
        OpcodeX86_64::FrameBased {
            stack_offset_in_bytes: 8,
            saved_regs: [Register(Rbx), Absent, Absent, Absent, Absent],
        }
    );
    assert_eq!(
        OpcodeX86_64::parse(0x0203_0800),
        OpcodeX86_64::FramelessImmediate {
            stack_size_in_bytes: 24,
            saved_regs: [Some(Rbx), Some(R12), None, None, None, None],
        }
    );
}

/// The original's `RegisterNameX86_64::parse`.
fn original_name(n: u8) -> Option<RegisterNameX86_64> {
    match n {
        1 => Some(Rbx),
        2 => Some(R12),
        3 => Some(R13),
        4 => Some(R14),
        5 => Some(R15),
        6 => Some(Rbp),
        _ => None,
    }
}

/// The same, with what is absent told from what is unknown.
fn told(n: u8) -> Named<RegisterNameX86_64> {
    match (n, original_name(n)) {
        (_, Some(name)) => Register(name),
        (0, None) => Absent,
        (_, None) => Unknown(n),
    }
}

/// The original's fields of a frame-based word: the highest first.
fn original_fields(opcode: u32) -> [Option<RegisterNameX86_64>; 5] {
    [12, 9, 6, 3, 0].map(|shift| original_name((opcode >> shift & 0b111) as u8))
}

/// The fields of a frame-based word.
fn fields(opcode: u32) -> [Named<RegisterNameX86_64>; 5] {
    match OpcodeX86_64::parse(opcode) {
        OpcodeX86_64::FrameBased { saved_regs, .. } => saved_regs,
        other => panic!("{opcode:#010x}: {other}"),
    }
}

/// The original's own expressions; but the fields of frame-based words come in the word's order,
/// and some are unknown.
#[test]
fn x86_64_words_are_read_as_the_original_reads_them_but_for_fields() {
    let mut kinds = [0; 7];
    for opcode in random_words() {
        let kind = (opcode >> 24 & 0b1111) as u8;
        let size = (opcode >> 16 & 0xff) as u16 * 8;
        let listed = decode_permutation_6(opcode >> 10 & 0b111, opcode & 0b11_1111_1111)
            .map(|registers| registers.map(original_name));
        let (case, expected) = match (kind, listed) {
            (0, _) => (0, OpcodeX86_64::Null),
            (1, _) => {
                let based = OpcodeX86_64::FrameBased {
                    stack_offset_in_bytes: size,
                    saved_regs: [0, 3, 6, 9, 12].map(|shift| told((opcode >> shift & 0b111) as u8)),
                };
                (1, based)
            }
            (2, Ok(saved_regs)) => {
                let immediate = OpcodeX86_64::FramelessImmediate {
                    stack_size_in_bytes: size,
                    saved_regs,
                };
                (2, immediate)
            }
            (3, Ok(saved_regs)) => {
                let indirect = OpcodeX86_64::FramelessIndirect {
                    immediate_offset_from_function_start: (opcode >> 16) as u8,
                    stack_adjust_in_bytes: (opcode >> 13 & 0b111) as u8 * 8,
                    saved_regs,
                };
                (3, indirect)
            }
            (2, Err(_)) | (3, Err(_)) => (4, OpcodeX86_64::InvalidFrameless),
            (4, _) => {
                let eh_frame_fde = opcode & 0xff_ffff;
                (5, OpcodeX86_64::Dwarf { eh_frame_fde })
            }
            (kind, _) => (6, OpcodeX86_64::UnrecognizedKind(kind)),
        };
        assert_eq!(OpcodeX86_64::parse(opcode), expected, "{opcode:#010x}");
        kinds[case] += 1;
    }
    assert!(kinds.iter().all(|&met| met > 1_000), "{kinds:?}");
}

/// The original's own expressions for the fields, but for the d pairs and the count.
#[test]
fn arm64_words_are_read_as_the_original_reads_them_but_for_d_pairs() {
    for opcode in random_words() {
        let expected = match (opcode >> 24 & 0b1111) as u8 {
            0 => OpcodeArm64::Null,
            2 => OpcodeArm64::Frameless {
                stack_size_in_bytes: (opcode >> 12 & 0xfff) as u16 * 16,
            },
            3 => OpcodeArm64::Dwarf {
                eh_frame_fde: opcode & 0xff_ffff,
            },
            4 => OpcodeArm64::FrameBased {
                saved_reg_pair_count: (opcode & 0b1111_0001_1111).count_ones() as u8,
                d14_and_d15_saved: opcode >> 11 & 1 == 1,
                d12_and_d13_saved: opcode >> 10 & 1 == 1,
                d10_and_d11_saved: opcode >> 9 & 1 == 1,
                d8_and_d9_saved: opcode >> 8 & 1 == 1,
                x27_and_x28_saved: opcode >> 4 & 1 == 1,
                x25_and_x26_saved: opcode >> 3 & 1 == 1,
                x23_and_x24_saved: opcode >> 2 & 1 == 1,
                x21_and_x22_saved: opcode >> 1 & 1 == 1,
                x19_and_x20_saved: opcode & 1 == 1,
            },
            kind => OpcodeArm64::UnrecognizedKind(kind),
        };
        assert_eq!(OpcodeArm64::parse(opcode), expected, "{opcode:#010x}");
    }
}

/// The count of a frame-based word of arm64, and its pairs, x19/x20 first.
fn pairs(opcode: u32) -> (u8, [bool; 9]) {
    match OpcodeArm64::parse(opcode) {
        OpcodeArm64::FrameBased {
            saved_reg_pair_count,
            d14_and_d15_saved,
            d12_and_d13_saved,
            d10_and_d11_saved,
            d8_and_d9_saved,
            x27_and_x28_saved,
            x25_and_x26_saved,
            x23_and_x24_saved,
            x21_and_x22_saved,
            x19_and_x20_saved,
        } => {
            let pairs = [
                x19_and_x20_saved,
                x21_and_x22_saved,
                x23_and_x24_saved,
                x25_and_x26_saved,
                x27_and_x28_saved,
                d8_and_d9_saved,
                d10_and_d11_saved,
                d12_and_d13_saved,
                d14_and_d15_saved,
            ];
            (saved_reg_pair_count, pairs)
        }
        other => panic!("{opcode:#010x}: {other}"),
    }
}

#[test]
fn arm64_pairs_are_where_compilers_write_them() {
    let alone = [
        0x0400_0001,
        0x0400_0002,
        0x0400_0004,
        0x0400_0008,
        0x0400_0010,
        0x0400_0100,
        0x0400_0200,
        0x0400_0400,
        0x0400_0800,
    ];
    for (pair, word) in alone.into_iter().enumerate() {
        let mut expected = [false; 9];
        expected[pair] = true;
        assert_eq!(pairs(word), (1, expected), "{word:#010x}");
    }
    assert_eq!(pairs(0x0400_0f1f), (9, [true; 9]));
    assert_eq!(pairs(0xf4ff_ffff), (9, [true; 9]));
    // Bits 5 to 7, and those above the d pairs, mark none.
    for word in [
        0x0400_0000,
        0x0400_0020,
        0x0400_0040,
        0x0400_0080,
        0x0400_00e0,
        0xf4ff_f0e0,
    ] {
        assert_eq!(pairs(word), (0, [false; 9]), "{word:#010x}");
    }
}

/// What the crate's documentation says of the original's d pairs, which are bits 5 to 8: by its own
/// expressions, on every value of the low 12 bits.
#[test]
fn arm64_d_pairs_are_not_the_originals() {
    let original = |word: u32| {
        let count = (word & 0b1_1111_1111).count_ones() as u8;
        let pairs = [0, 1, 2, 3, 4, 5, 6, 7, 8].map(|bit| word >> bit & 1 == 1);
        (count, pairs)
    };
    let mut differ = Vec::new();
    for word in 0x0400_0000..0x0400_1000 {
        let bit = |n: u32| word >> n & 1;
        let alike = bit(5) == bit(8) && bit(8) == bit(11) && bit(6) == bit(9) && bit(7) == bit(10);
        assert_eq!(pairs(word) == original(word), alike, "{word:#010x}");
        if !alike {
            differ.push(word);
        }
    }
    assert_eq!((differ[0], differ.len()), (0x0400_0020, 3_840));

    let [mut d8, mut d14] = [[false; 9]; 2];
    d8[5] = true;
    d14[8] = true;
    assert_eq!(original(0x0400_0020), (1, d8));
    assert_eq!(pairs(0x0400_0020), (0, [false; 9]));
    assert_eq!(original(0x0400_0100), (1, d14));
    assert_eq!(pairs(0x0400_0100), (1, d8));
}

/// The smallest words with an absent and with an unknown field: to the original they are alike.
#[test]
fn absent_is_not_unknown() {
    let based = |saved_regs| OpcodeX86_64::FrameBased {
        stack_offset_in_bytes: 0,
        saved_regs,
    };
    let (absent, unknown) = (0x0100_0000, 0x0100_0007);
    assert_eq!(OpcodeX86_64::parse(absent), based([Absent; 5]));
    assert_eq!(
        OpcodeX86_64::parse(unknown),
        based([Unknown(7), Absent, Absent, Absent, Absent])
    );
    assert_eq!(original_fields(absent), original_fields(unknown));
    assert_eq!(fields(0x41ff_7fff), [Unknown(7); 5]);
}

/// Place k has field k, whose bits are 3k to 3k + 2; bits 15 and 28 to 31 say nothing.
#[test]
fn fields_are_in_the_words_order() {
    assert_eq!(
        OpcodeX86_64::parse(0x912a_c54b),
        OpcodeX86_64::FrameBased {
            stack_offset_in_bytes: 336,
            saved_regs: [R13, Rbx, R15, R12, R14].map(Register),
        }
    );
    for (k, word) in [1, 8, 0x40, 0x200, 0x1000].into_iter().enumerate() {
        let mut expected = [Absent; 5];
        expected[k] = Register(Rbx);
        assert_eq!(fields(0x0100_0000 + word), expected);
        expected[k] = Unknown(7);
        assert_eq!(fields(0x0100_0000 + 7 * word), expected);
        expected[k] = Register(Rbp);
        assert_eq!(fields(0x0100_0000 + 6 * word), expected);
    }
}

/// All combinations, in the order of their numbers; and the original's fields, turned round.
#[test]
fn every_combination_of_fields_is_read() {
    let eight = [
        Absent,
        Register(Rbx),
        Register(R12),
        Register(R13),
        Register(R14),
        Register(R15),
        Register(Rbp),
        Unknown(7),
    ];
    let mut word = 0x0100_0000;
    for e in eight {
        for d in eight {
            for c in eight {
                for b in eight {
                    for a in eight {
                        assert_eq!(fields(word), [a, b, c, d, e], "{word:#010x}");
                        let mut original = original_fields(word);
                        original.reverse();
                        let known = fields(word).map(|field| match field {
                            Register(name) => Some(name),
                            _ => None,
                        });
                        assert_eq!(known, original, "{word:#010x}");
                        word += 1;
                    }
                }
            }
        }
    }
    assert_eq!(word, 0x0100_8000);
}

/// All permutations of both kinds: as many different registers as are counted, then `None`s.
#[test]
fn frameless_lists_have_registers_and_then_nothing() {
    let mut lists = 0;
    for low in 0..0x2000 {
        for kind in [0x0200_0000, 0x0300_0000] {
            let saved_regs = match OpcodeX86_64::parse(kind | low) {
                OpcodeX86_64::FramelessImmediate { saved_regs, .. } => saved_regs,
                OpcodeX86_64::FramelessIndirect { saved_regs, .. } => saved_regs,
                OpcodeX86_64::InvalidFrameless => continue,
                other => panic!("{:#010x}: {other}", kind | low),
            };
            let (listed, rest) = saved_regs.split_at(low as usize >> 10);
            let registers: HashSet<_> = listed.iter().flatten().collect();
            assert_eq!(registers.len(), listed.len(), "{low:#06x}");
            assert!(rest.iter().all(Option::is_none), "{low:#06x}");
            lists += 1;
        }
    }
    assert_eq!(lists, 2 * (1024 + 6 + 30 + 120 + 360 + 720 + 720));
}

#[test]
fn a_bitfield_has_its_parts() {
    for word in random_words().take(1_000) {
        let bits = OpcodeBitfield::from(word);
        assert_eq!((bits.0, OpcodeBitfield::new(word).0), (word, word));
        assert_eq!(u32::from(bits.kind()), word >> 24 & 15);
        assert_eq!(bits.specific_bits(), word & 0xff_ffff);
    }
}

/// Bit 31, bit 30, and bits 28 and 29, by hand and by the original's own expressions.
#[test]
fn a_bitfield_has_the_four_bits_above_its_kind() {
    let bits = |word| {
        let bits = OpcodeBitfield::new(word);
        (
            bits.is_function_start(),
            bits.has_lsda(),
            bits.personality_index(),
        )
    };
    assert_eq!(bits(0x0101_0001), (false, false, 0));
    assert_eq!(bits(0x1101_0001), (false, false, 1));
    assert_eq!(bits(0x2101_0001), (false, false, 2));
    assert_eq!(bits(0x4101_0001), (false, true, 0));
    assert_eq!(bits(0x7203_0800), (false, true, 3));
    assert_eq!(bits(0x8101_0001), (true, false, 0));
    assert_eq!(bits(0x0fff_ffff), (false, false, 0));
    assert_eq!(bits(0xf000_0000), (true, true, 3));
    for top in 0..16 {
        for rest in [0, 0x0101_0001, 0x0fff_ffff] {
            let word = top << 28 | rest;
            let original = (
                word >> 31 == 1,
                (word >> 30) & 0b1 == 1,
                ((word >> 28) & 0b11) as u8,
            );
            assert_eq!(bits(word), original, "{word:#010x}");
        }
    }
}

#[test]
fn a_number_is_absent_a_register_or_unknown() {
    let registers = [Rbx, R12, R13, R14, R15, Rbp];
    assert_eq!(registers.len(), RegisterNameX86_64::COUNT);
    assert_eq!(RegisterNameX86_64::parse(0), Absent);
    for (n, register) in (1..).zip(registers) {
        assert_eq!(RegisterNameX86_64::parse(n), Register(register));
    }
    for n in 7..=255 {
        assert_eq!(RegisterNameX86_64::parse(n), Unknown(n));
    }
    assert_eq!(
        registers.map(|register| register.dwarf_number()),
        [3, 12, 13, 14, 15, 6]
    );
    for register in registers {
        let name = format!("reg{}", register.dwarf_number());
        assert_eq!(register.dwarf_name(), name);
    }
}

#[test]
fn permutations() {
    assert_eq!(decode_permutation_6(6, 719), Ok([6, 5, 4, 3, 2, 1]));
    assert_eq!(decode_permutation_6(5, 719), Ok([6, 5, 4, 3, 2, 0]));
    assert_eq!(decode_permutation_6(0, 1023), Ok([0; 6]));
    let refused = Err(PermutationError::InvalidEncoding);
    assert_eq!(decode_permutation_6(6, 720), refused);
    assert_eq!(decode_permutation_6(7, 0), refused);
    assert_eq!(PermutationError::InvalidEncoding.number(), 23);
}

#[test]
fn what_is_decoded_is_encoded_again() {
    let first_refused = [6, 30, 120, 360, 720, 720];
    for (count, first_refused) in (1..).zip(first_refused) {
        for encoding in 0..first_refused {
            let registers = decode_permutation_6(count, encoding).unwrap();
            assert_eq!(encode_permutation_6(count, &registers), Ok(encoding));
        }
        assert!(decode_permutation_6(count, first_refused).is_err());
    }
    assert_eq!(encode_permutation_6(0, &[0; 6]), Ok(0));
}

#[test]
fn lists_that_are_none_are_refused() {
    for (count, list) in [
        (2, [1, 1, 0, 0, 0, 0]),
        (2, [1, 7, 0, 0, 0, 0]),
        (2, [1, 0, 0, 0, 0, 0]),
        (1, [1, 2, 0, 0, 0, 0]),
        (7, [1, 2, 3, 4, 5, 6]),
    ] {
        let refused = encode_permutation_6(count, &list).unwrap_err();
        assert_eq!(refused, PermutationError::InvalidList);
        assert_eq!(refused.number(), 28);
    }
}

#[test]
fn words_print() {
    let x86_64 = |word| OpcodeX86_64::parse(word).to_string();
    assert_eq!(x86_64(0), "null");
    assert_eq!(x86_64(0x0100_0000), "frame-based, 0 below rbp");
    assert_eq!(x86_64(0x0103_0045), "frame-based, 24 below rbp: r15 rbx");
    assert_eq!(x86_64(0x0100_0007), "frame-based, 0 below rbp: unknown 7");
    assert_eq!(
        x86_64(0x0105_31f9),
        "frame-based, 40 below rbp: rbx unknown 7 unknown 7 r13"
    );
    assert_eq!(x86_64(0x0201_0000), "frameless, 8 bytes");
    assert_eq!(
        x86_64(0x030d_e405),
        "frameless, size at 13 in the code and 56 more: rbp"
    );
    assert_eq!(x86_64(0x0400_1234), "__eh_frame at 0x1234");
    assert_eq!(x86_64(0x0200_0406), "frameless, not a permutation");
    assert_eq!(x86_64(0x0f00_0000), "unknown kind 15");

    let arm64 = |word| OpcodeArm64::parse(word).to_string();
    assert_eq!(arm64(0), "null");
    assert_eq!(arm64(0x0200_2000), "frameless, 32 bytes");
    assert_eq!(arm64(0x0300_0014), "__eh_frame at 0x14");
    assert_eq!(arm64(0x0400_0000), "frame-based");
    assert_eq!(arm64(0x0400_00e0), "frame-based");
    assert_eq!(arm64(0x0400_0101), "frame-based: x19/x20 d8/d9");
    assert_eq!(
        arm64(0x0400_0e01),
        "frame-based: x19/x20 d10/d11 d12/d13 d14/d15"
    );
    assert_eq!(arm64(0x0100_0000), "unknown kind 1");
}
