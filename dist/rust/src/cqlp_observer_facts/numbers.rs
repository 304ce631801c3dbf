// Written by dist/erase from crates/cqlp_observer_facts/src/numbers.rt.
//! Numbers of one, two and four bytes: the highest byte comes first.

/// The first N bytes.
#[inline(always)]
pub(crate) fn array<const N: usize>(bytes: &[u8]) -> [u8; N] {
    *bytes.first_chunk().unwrap()
}

/// A \[byte\].
#[inline(always)]
pub(crate) fn byte(bytes: &[u8]) -> u8 {
    u8::from_be_bytes(array(bytes))
}

/// A \[short\].
#[inline(always)]
pub(crate) fn short(bytes: &[u8]) -> u16 {
    u16::from_be_bytes(array(bytes))
}

/// An \[int\], as a number without a sign.
#[inline(always)]
pub(crate) fn int(bytes: &[u8]) -> u32 {
    u32::from_be_bytes(array(bytes))
}

/// Whether an \[int\] is negative.
#[inline(always)]
pub(crate) fn is_negative(number: u32) -> bool {
    number > 0x7FFF_FFFF
}

/// Whether some bit of these is set.
#[inline(always)]
pub(crate) fn has(flags: u32, bits: u32) -> bool {
    flags & bits > 0
}
