//! Little-endian numbers in bytes, at any alignment.

#[derive(Clone, Copy)]
pub struct Bytes<'a>(pub &'a [u8]);

impl Bytes<'_> {
    /// Whether `bytes` bytes may be read at `offset`. Both come from numbers of 32 bits, times at
    /// most 12, so their sum doesn't wrap.
    pub fn granted(self, offset: u64, bytes: u64) -> bool {
        offset + bytes <= self.0.len() as u64
    }

    /// A number of two bytes in a part that was granted.
    pub fn u16(self, offset: u64) -> u16 {
        u16::from_le_bytes(self.read(offset))
    }

    /// A number of four bytes in a part that was granted.
    pub fn u32(self, offset: u64) -> u32 {
        u32::from_le_bytes(self.read(offset))
    }

    fn read<const N: usize>(self, offset: u64) -> [u8; N] {
        let offset = offset as usize;
        std::array::from_fn(|k| self.0[offset + k])
    }
}
