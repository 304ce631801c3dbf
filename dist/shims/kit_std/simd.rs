//! Sixteen bytes compared at once, of the portable simd that is not in stable Rust: here in two words, where no byte changes another.
pub mod prelude {
    pub use super::u8x16;
}

const GREATEST: u64 = 0x8080_8080_8080_8080;

#[allow(non_camel_case_types)]
#[derive(Clone, Copy)]
pub struct u8x16([u64; 2]);

/// The greatest bit of each byte of which a comparison holds.
pub struct Mask([u64; 2]);

impl u8x16 {
    #[inline(always)]
    pub fn from_slice(bytes: &[u8]) -> Self {
        let word = |bytes: &[u8]| bytes.first_chunk().map_or(0, |word| u64::from_le_bytes(*word));
        u8x16([word(&bytes[..8]), word(&bytes[8..16])])
    }

    #[inline(always)]
    pub fn splat(byte: u8) -> Self {
        u8x16([u64::from_le_bytes([byte; 8]); 2])
    }

    /// Where the greatest bits are the same the other seven decide: their difference, from 128 more, is then below 128.
    #[inline(always)]
    pub fn simd_lt(self, other: Self) -> Mask {
        let less = |a: u64, b: u64| (!a & b | !(a ^ b) & !((a | GREATEST) - (b & !GREATEST))) & GREATEST;
        Mask([less(self.0[0], other.0[0]), less(self.0[1], other.0[1])])
    }

    /// A byte of the difference is 0 where its greatest bit is, and where 127 more than the other seven is below 128.
    #[inline(always)]
    pub fn simd_eq(self, other: Self) -> Mask {
        let none = |a: u64| !(a | (a & !GREATEST) + !GREATEST) & GREATEST;
        Mask([none(self.0[0] ^ other.0[0]), none(self.0[1] ^ other.0[1])])
    }
}

impl Mask {
    /// A bit for each byte, the lowest for the first.
    #[inline(always)]
    pub fn to_bitmask(self) -> u64 {
        let bits = |word: u64| (0..8).fold(0, |bits, i| bits | (word >> (8 * i + 7) & 1) << i);
        if self.0 == [0, 0] { 0 } else { bits(self.0[0]) | bits(self.0[1]) << 8 }
    }
}
