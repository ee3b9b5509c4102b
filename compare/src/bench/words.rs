//! Permutations and opcode words.

use super::inputs;
use super::table::Table;
use crate::ffi;
use crate::oracle::read_alike_arm64;
use crate::oracle::release_0_5_0::{macho, permutation};
use macho::opcodes::{OpcodeArm64, OpcodeX86_64};

pub fn measure_all(table: &Table) {
    permutations(table, "accepted", &inputs::accepted());
    permutations(table, "random", &inputs::random_pairs());
    x86_64(table, "mixed kinds", &inputs::mixed_words());
    x86_64(table, "frameless immediate", &inputs::frameless_words());
    x86_64(table, "frame-based", &inputs::words_of_kind(1));
    arm64(table, "mixed kinds", &inputs::mixed_words());
    arm64(table, "frame-based", &inputs::words_of_kind(4));
}

fn permutations(table: &Table, which: &str, inputs: &[(u32, u32)]) {
    table.row(
        &format!("permutations, {which}"),
        inputs,
        |(count, encoding)| ffi::decode_permutation_6(count, encoding),
        || |(count, encoding)| permutation::decode_permutation_6(count, encoding),
    );
}

fn x86_64(table: &Table, which: &str, words: &[u32]) {
    let name = format!("x86_64 words, {which}");
    table.row(&name, words, ffi::parse_x86_64, || OpcodeX86_64::parse);
}

/// On words that both sides read alike.
fn arm64(table: &Table, which: &str, words: &[u32]) {
    let name = format!("arm64 words, {which}");
    let words: Vec<u32> = words.iter().copied().map(read_alike_arm64).collect();
    table.row(&name, &words, ffi::parse_arm64, || OpcodeArm64::parse);
}
