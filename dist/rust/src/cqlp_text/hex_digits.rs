// Written by dist/erase from crates/cqlp_text/src/hex_digits.rt.
//! Bytes as hexadecimal digits, many at a time.

/// How many bytes become digits at once.
pub(crate) const BLOCK: usize = 64;

/// The two lower case hexadecimal digits of each byte. They are found by arithmetic, which compilers do for many bytes at once: `hex` looks each up.
#[inline(always)]
pub(crate) fn digits_of(block: &[u8; BLOCK]) -> [u8; 2 * BLOCK] {
    let mut digits = [0; 2 * BLOCK];
    for at in 0..BLOCK {
        let byte = block[at];
        digits[2 * at] = digit_of(byte >> 4);
        digits[2 * at + 1] = digit_of(byte & 0x0F);
    }
    digits
}

/// The lower case hexadecimal digit of a number below 16.
#[inline(always)]
fn digit_of(number: u8) -> u8 {
    if number < 10 {
        b'0' + number
    } else {
        b'a' - 10 + number
    }
}
