// Written by dist/erase from crates/cqlp_json/src/string.rt.
//! Texts as JSON strings: a quote, a backslash and each control character is escaped.

use crate::kit_std::prelude::{KitVec};
use crate::cqlp_grammar::SinkFault;
use crate::cqlp_text::{Pen, TextWriter};
use crate::kit_std::simd::prelude::*;

/// How many bytes are looked at at once.
const BLOCK: usize = 16;

/// Takes a text between quotes, with escapes.
pub fn put_string<P: Pen>(text: &str, writer: &mut TextWriter<P>) -> Result<(), SinkFault> {
    writer.put(b"\"")?;
    put_escaped(text.as_bytes(), writer)?;
    writer.put(b"\"")
}

/// Takes a text as it is written between quotes; what needs no escape is taken as it is, many bytes at once.
fn put_escaped<P: Pen>(bytes: &[u8], writer: &mut TextWriter<P>) -> Result<(), SinkFault> {
    let mut rest = bytes;
    while !rest.is_empty() {
        let plain = plain_len(rest);
        writer.put(&rest[..plain])?;
        let after = &rest[plain..];
        put_front(after, writer)?;
        rest = &after[front_len(after)..];
    }
    Ok(())
}

/// How many bytes the first escape is for: two of a control character beyond ASCII, and else one.
#[inline(always)]
fn front_len(bytes: &[u8]) -> usize {
    match bytes {
        [] => 0,
        [0xC2, 0x80..=0x9F, ..] => 2,
        _ => 1,
    }
}

/// Takes the escape of what is at the front.
fn put_front<P: Pen>(bytes: &[u8], writer: &mut TextWriter<P>) -> Result<(), SinkFault> {
    match bytes {
        [] => Ok(()),
        [0xC2, number @ 0x80..=0x9F, ..] => put_unicode(*number, writer),
        [byte, ..] => put_byte(*byte, writer),
    }
}

/// Takes a byte as it is written between quotes.
fn put_byte<P: Pen>(byte: u8, writer: &mut TextWriter<P>) -> Result<(), SinkFault> {
    if is_plain(byte) || byte == 0xC2 {
        return writer.put(&[byte]);
    }
    match byte {
        b'"' => writer.put(b"\\\""),
        b'\\' => writer.put(b"\\\\"),
        0x08 => writer.put(b"\\b"),
        b'\t' => writer.put(b"\\t"),
        b'\n' => writer.put(b"\\n"),
        0x0C => writer.put(b"\\f"),
        b'\r' => writer.put(b"\\r"),
        _ => put_unicode(byte, writer),
    }
}

/// Takes a character below U+0100, by its number.
fn put_unicode<P: Pen>(number: u8, writer: &mut TextWriter<P>) -> Result<(), SinkFault> {
    writer.put(b"\\u00")?;
    writer.put_hex(&[number])
}

/// How many bytes at the front need no escape.
#[inline(always)]
fn plain_len(bytes: &[u8]) -> usize {
    let mut at = plain_blocks(bytes);
    while at < bytes.len() && is_plain(bytes[at]) {
        at += 1;
    }
    at
}

/// How many blocks at the front need no escape, in bytes.
#[inline(always)]
fn plain_blocks(bytes: &[u8]) -> usize {
    let mut at = 0;
    while bytes.len() - at >= BLOCK && is_plain_block(bytes, at) {
        at += BLOCK;
    }
    at
}

/// Whether none of the bytes of a block needs an escape.
#[inline(always)]
fn is_plain_block(bytes: &[u8], at: usize) -> bool {
    let block = u8x16::from_slice(&bytes[at..]);
    none_below(block, 32)
        & lacks(block, b'"')
        & lacks(block, b'\\')
        & lacks(block, 127)
        & lacks(block, 194)
}

/// Whether no byte of a block is below this one.
#[inline(always)]
fn none_below(block: u8x16, byte: u8) -> bool {
    block.simd_lt(u8x16::splat(byte)).to_bitmask() == 0
}

/// Whether this byte is not in a block.
#[inline(always)]
fn lacks(block: u8x16, byte: u8) -> bool {
    block.simd_eq(u8x16::splat(byte)).to_bitmask() == 0
}

/// Whether a byte is written as it is, whatever comes after it.
#[inline(always)]
fn is_plain(byte: u8) -> bool {
    byte >= 32 && byte != b'"' && byte != b'\\' && byte != 127 && byte != 194
}
