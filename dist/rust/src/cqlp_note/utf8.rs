// Written by dist/erase from crates/cqlp_note/src/utf8.rt.
//! Bytes that are a text. A text that comes in pieces is looked at once, when its last byte is there: `accepts` in partial.rt.

/// Whether these bytes are UTF-8. ASCII, which most texts are, is found out eight bytes at a time.
#[inline]
pub fn is_text(bytes: &[u8]) -> bool {
    bytes.is_ascii() || is_wide_text(bytes)
}

/// The same, a character at a time.
#[inline(never)]
fn is_wide_text(bytes: &[u8]) -> bool {
    match core::str::from_utf8(bytes) {
        Ok(_) => true,
        Err(_) => false,
    }
}
