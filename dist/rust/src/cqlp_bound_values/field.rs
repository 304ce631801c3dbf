// Written by dist/erase from crates/cqlp_bound_values/src/field.rt.
//! Fields at the front of bytes, and what comes behind them, which is nothing where a field is not there whole.

/// What comes behind so many bytes.
pub(crate) fn behind(count: usize, bytes: &[u8]) -> &[u8] {
    &bytes[bytes.len().min(count)..]
}

/// A \[short\], or 0 where it is not there.
pub(crate) fn short_at(bytes: &[u8]) -> u16 {
    match bytes.first_chunk::<2>() {
        Some(number) => u16::from_be_bytes(*number),
        None => 0,
    }
}

/// An \[int\] without a sign, or 0 where it is not there.
pub(crate) fn int_at(bytes: &[u8]) -> u32 {
    match bytes.first_chunk::<4>() {
        Some(number) => u32::from_be_bytes(*number),
        None => 0,
    }
}

/// What is there of a \[string\].
pub(crate) fn string_at(bytes: &[u8]) -> &[u8] {
    let content = behind(2, bytes);
    &content[..content.len().min(short_at(bytes) as usize)]
}

/// What comes behind a \[string\], or \[short bytes\].
pub(crate) fn behind_string(bytes: &[u8]) -> &[u8] {
    behind(short_at(bytes) as usize, behind(2, bytes))
}

/// What comes behind a \[long string\].
pub(crate) fn behind_long_string(bytes: &[u8]) -> &[u8] {
    behind(int_at(bytes) as usize, behind(4, bytes))
}

/// Whether there are no more bytes.
pub(crate) fn is_end(bytes: &[u8]) -> bool {
    bytes.is_empty()
}

/// The longest front of bytes that is UTF-8.
pub(crate) fn text_front(bytes: &[u8]) -> &str {
    match core::str::from_utf8(bytes) {
        Ok(text) => text,
        // SAFETY: the bytes up to there are UTF-8.
        Err(error) => unsafe { core::str::from_utf8_unchecked(&bytes[..error.valid_up_to()]) },
    }
}

/// Whether some bit of these is set.
pub(crate) fn has(flags: u8, bits: u8) -> bool {
    flags & bits > 0
}
