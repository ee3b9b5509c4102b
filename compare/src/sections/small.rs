//! Section S (docs/FORMAT.md, 2.8) and all that lies a byte beside it.

/// S, 80 bytes.
pub fn s() -> Vec<u8> {
    let words =
        |numbers: &[u32]| -> Vec<u8> { numbers.iter().flat_map(|n| n.to_le_bytes()).collect() };
    let halves =
        |numbers: &[u16]| -> Vec<u8> { numbers.iter().flat_map(|n| n.to_le_bytes()).collect() };
    [
        words(&[1, 28, 1, 32, 0, 32, 2]),
        words(&[0x0101_0001]),
        words(&[0x1000, 56, 0, 0x1100, 0, 0]),
        words(&[3]),
        halves(&[12, 2, 20, 1]),
        words(&[0x0000_0000, 0x0100_0040, 0x0203_0800]),
    ]
    .concat()
}

/// S cut at every byte, itself last.
pub fn prefixes() -> impl Iterator<Item = Vec<u8>> {
    (0..=s().len()).map(|length| s()[..length].to_vec())
}

/// S with one byte changed, in every way.
pub fn mutations() -> impl Iterator<Item = Vec<u8>> {
    (0..s().len()).flat_map(|place| {
        (1..=255).map(move |change| {
            let mut section = s();
            section[place] ^= change;
            section
        })
    })
}
