//! Reads, the encoder, words, registers and rules.

use super::calls::{self, Call};
use super::{agreed, u32s, u64s, Files};
use crate::encoder::{self, Expected};
use crate::ffi::Number;
use crate::frames::machine::{Machine, ARM64, X86_64};
use crate::frames::named;
use crate::model::frame::named::Named;
use crate::model::frame::word::parse_x86_64;
use crate::model::frame::{arrangements, rule};
use crate::oracle::{told, Release, RELEASES};
use crate::record::same;
use std::collections::BTreeSet;
use std::io::Result;

pub fn record(out: &mut Files) -> Result<()> {
    for section in [&BYTES[..], &[]] {
        out.about(section);
        read(out, section, 2, &calls::READ_U16, |release| {
            release.read_u16
        });
        read(out, section, 4, &calls::READ_U32, |release| {
            release.read_u32
        });
        read(out, section, 8, &calls::READ_U64, |release| {
            release.read_u64
        });
        grant(out, section);
    }
    bits(out);
    registers(out)?;
    parsed(out)?;
    encode(out)?;
    let x86_64 = named::x86_64()
        .iter()
        .map(|named| named.case.word)
        .collect();
    rules(out, &X86_64, &calls::RULE_X86_64, &RULED_X86_64, x86_64)?;
    let arm64 = named::arm64().iter().map(|named| named.case.word).collect();
    rules(out, &ARM64, &calls::RULE_ARM64, &RULED_ARM64, arm64)
}

/// Bytes of which no two are alike.
const BYTES: [u8; 11] = [
    0x81, 0x92, 0xa3, 0xb4, 0xc5, 0xd6, 0xe7, 0xf8, 0x19, 0x2a, 0x3b,
];

/// The first and the last that are granted, those beside them, and offsets whose sum would wrap.
fn read(
    out: &mut Files,
    section: &[u8],
    width: usize,
    call: &Call,
    of: fn(&Release) -> fn(&[u8], usize) -> Number,
) {
    let last = section.len().saturating_sub(width);
    let wraps = usize::MAX - width + 1;
    for offset in BTreeSet::from([0, 1, last, last + 1, wraps, usize::MAX]) {
        let Number { granted, value } = same(|release| of(release)(section, offset));
        let asked = u64s(&[offset as u64]);
        out.record(call, &asked, &[granted], [granted.into(), value]);
    }
}

fn grant(out: &mut Files, section: &[u8]) {
    let length = section.len();
    let half = 1 << 63;
    for (offset, bytes) in BTreeSet::from([
        (0, 0),
        (0, length),
        (0, length + 1),
        (length / 2, length - length / 2),
        (length / 2, length - length / 2 + 1),
        (length, 0),
        (length, 1),
        (length + 1, 0),
        (1, usize::MAX),
        (usize::MAX, 1),
        (usize::MAX, usize::MAX),
        (half, half),
    ]) {
        let granted = same(|release| (release.is_granted)(section, offset, bytes));
        let asked = u64s(&[offset as u64, bytes as u64]);
        out.record(
            &calls::IS_GRANTED,
            &asked,
            &[granted.into()],
            [granted.into()],
        );
    }
}

/// A word of every kind, its other bits set in turns.
fn bits(out: &mut Files) {
    for kind in 0..16 {
        let word = kind << 24 | [0xf0ab_cdef, 0x0012_3456][kind as usize % 2];
        let asked = u32s(&[word]);
        let told = same(|release| (release.opcode_kind)(word)).into();
        out.record(&calls::OPCODE_KIND, &asked, &[kind], [told]);
        if kind % 5 == 0 {
            let told = same(|release| (release.opcode_specific_bits)(word)).into();
            out.record(&calls::OPCODE_SPECIFIC_BITS, &asked, &[kind], [told]);
        }
    }
}

/// The model's, and the Rust's as far as that tells it.
fn registers(out: &mut Files) -> Result<()> {
    for n in [0, 1, 2, 3, 4, 5, 6, 7, 8, 255] {
        let model = Named::by(n.into()).told();
        let rust = same(|release| (release.register_x86_64)(n));
        agreed("a register", told::register(model), rust)?;
        let numbers = [model.state, model.number, model.dwarf_number].map(u64::from);
        let asked = u32s(&[n.into()]);
        out.record(&calls::REGISTER_X86_64, &asked, &[model.state], numbers);
    }
    Ok(())
}

/// Frame-based: no field, rbp, 7, all five, rbx with 7, rbp and r12 above it, 7 everywhere. Then the
/// other kinds, with and without registers, and with ignored bits.
const PARSED_X86_64: [u32; 16] = [
    0x0100_0000,
    0x0100_0006,
    0x0100_0007,
    0x0105_58d1,
    0x0105_2dc1,
    0xf1ff_ffff,
    0xf0ff_ffff,
    0x0203_0800,
    0xf2ff_facf,
    0x0201_03ff,
    0x0307_0405,
    0xf3ff_fa00,
    0x02ff_1ad0,
    0x0300_1c00,
    0x04ab_cdef,
    0xffff_ffff,
];

/// The model's, and the Rust's as far as that tells it.
fn parsed(out: &mut Files) -> Result<()> {
    for word in PARSED_X86_64 {
        let model = parse_x86_64(word);
        let rust = same(|release| (release.parse_x86_64)(word));
        agreed("a word", told::word(model), rust)?;
        let first = [
            model.value,
            model.answer.into(),
            model.stack_adjust_in_bytes.into(),
            model.fields.into(),
            model.field_states.into(),
        ];
        let numbers = first.into_iter().chain(model.popped_regs.map(u32::from));
        let cases = [model.answer.into()];
        let asked = u32s(&[word]);
        out.record(&calls::PARSE_X86_64, &asked, &cases, numbers.map(u64::from));
    }
    Ok(())
}

/// Counts with lists that are refused: a count too large, a zero or another number too early, too
/// many, a number twice, a number that is no register's.
const REFUSED: [(u32, [u8; 6]); 12] = [
    (7, [1, 2, 3, 4, 5, 6]),
    (u32::MAX, [0; 6]),
    (1, [0; 6]),
    (2, [1, 0, 0, 0, 0, 0]),
    (2, [0, 1, 0, 0, 0, 0]),
    (2, [1, 0, 2, 0, 0, 0]),
    (0, [1, 0, 0, 0, 0, 0]),
    (2, [1, 2, 3, 0, 0, 0]),
    (5, [6, 5, 4, 3, 2, 1]),
    (3, [4, 2, 4, 0, 0, 0]),
    (1, [7, 0, 0, 0, 0, 0]),
    (6, [1, 2, 3, 4, 5, 255]),
];

/// For each count an encoding in the midst and the last; then what is refused.
fn encode(out: &mut Files) -> Result<()> {
    let all = encoder::accepted();
    let expected = Expected::new();
    let mut lists = vec![(0, [0; 6])];
    for count in 1..=6 {
        let of_count: Vec<_> = all.iter().filter(|one| one.0 == count).collect();
        let chosen = [of_count.len() * 5 / 8, of_count.len() - 1];
        lists.extend(chosen.map(|i| (count, of_count[i].2)));
    }
    for (count, list) in lists {
        let answer = expected.answer(count, &list);
        let number = arrangements::number(&list[..count as usize]);
        agreed(
            "an encoding",
            (answer.refusal, answer.encoding),
            (0, number),
        )?;
        encoded(out, &expected, count, &list);
    }
    for (count, list) in &REFUSED {
        encoded(out, &expected, *count, list);
    }
    Ok(())
}

fn encoded(out: &mut Files, expected: &Expected, count: u32, list: &[u8; 6]) {
    let answer = expected.answer(count, list);
    let list = list.map(u32::from);
    let asked = u32s(&[&[count], &list[..]].concat());
    let numbers = [answer.refusal, answer.encoding].map(u64::from);
    out.record(
        &calls::ENCODE_PERMUTATION_6,
        &asked,
        &[answer.refusal],
        numbers,
    );
}

/// All five fields; a field in the midst; six registers pushed, the last number and others.
const RULED_X86_64: [u32; 6] = [
    0x0105_58d1,
    0x0105_00c0,
    0x02ff_1acf,
    0x0207_1905,
    0x0206_1700,
    0x0201_03ff,
];
/// Each pair alone, all of them, some with ignored bits, and bits 5 to 7, which name none.
const RULED_ARM64: [u32; 12] = [
    0x0400_0001,
    0x0400_0002,
    0x0400_0004,
    0x0400_0008,
    0x0400_0010,
    0x0400_0100,
    0x0400_0200,
    0x0400_0400,
    0x0400_0800,
    0x0400_0f1f,
    0x0400_0aaa,
    0x0400_00e0,
];

/// The words given and those of the named cases.
fn rules<const N: usize>(
    out: &mut Files,
    machine: &Machine<N>,
    call: &Call,
    given: &[u32],
    named: BTreeSet<u32>,
) -> Result<()> {
    for word in given.iter().copied().chain(named) {
        let told = rule((machine.frame)(word));
        for release in &RELEASES {
            if let Some(frame) = (machine.rust)(release, word) {
                agreed("a rule", told, rule(frame))?;
            }
        }
        let first = [told.refusal, told.value].map(u64::from);
        let cfa = [told.cfa_distance, told.cfa_register.into()];
        let below = told.below.map(u64::from);
        let numbers = first.into_iter().chain(cfa).chain(below);
        out.record(call, &u32s(&[word]), &[told.refusal], numbers);
    }
    Ok(())
}
