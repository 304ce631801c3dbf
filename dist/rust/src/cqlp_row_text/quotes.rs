// Written by dist/erase from crates/cqlp_row_text/src/quotes.rt.
//! Texts in quotes, where a quote is doubled.

use crate::kit_std::prelude::{KitVec};
use crate::cqlp_grammar::SinkFault;
use crate::cqlp_text::{Pen, TextWriter};
use crate::kit_std::simd::prelude::*;

/// How many bytes are looked at at once.
const BLOCK: usize = 16;

/// Takes a text as a field.
pub(crate) fn put_text_field<P: Pen>(
    text: &str,
    writer: &mut TextWriter<P>,
) -> Result<(), SinkFault> {
    writer.put(b"\"")?;
    put_doubled(b'"', b'"', text.as_bytes(), writer)?;
    writer.put(b"\"")
}

/// Takes a text as an item of a field.
pub(crate) fn put_text_item<P: Pen>(text: &str, writer: &mut TextWriter<P>) -> Result<(), SinkFault> {
    writer.put(b"'")?;
    put_doubled(b'\'', b'"', text.as_bytes(), writer)?;
    writer.put(b"'")
}

/// Takes bytes with each of these two twice; what is between them is taken as it is, many bytes at once.
fn put_doubled<P: Pen>(
    a: u8,
    b: u8,
    bytes: &[u8],
    writer: &mut TextWriter<P>,
) -> Result<(), SinkFault> {
    let mut rest = bytes;
    while !rest.is_empty() {
        let plain = plain_len(a, b, rest);
        writer.put(&rest[..plain])?;
        let Some((byte, after)) = rest[plain..].split_first() else {
            return Ok(());
        };
        put_byte(a, b, *byte, writer)?;
        rest = after;
    }
    Ok(())
}

/// Takes a byte, twice where it is one of these two.
#[inline]
fn put_byte<P: Pen>(a: u8, b: u8, byte: u8, writer: &mut TextWriter<P>) -> Result<(), SinkFault> {
    if is_mark(a, b, byte) {
        writer.put(&[byte, byte])
    } else {
        writer.put(&[byte])
    }
}

/// How many bytes at the front are neither of these two.
#[inline]
fn plain_len(a: u8, b: u8, bytes: &[u8]) -> usize {
    let mut at = plain_blocks(a, b, bytes);
    while at < bytes.len() && !is_mark(a, b, bytes[at]) {
        at += 1;
    }
    at
}

/// How many bytes in whole blocks at the front are neither of these two.
#[inline]
fn plain_blocks(a: u8, b: u8, bytes: &[u8]) -> usize {
    let mut at = 0;
    while bytes.len() - at >= BLOCK && is_plain_block(a, b, bytes, at) {
        at += BLOCK;
    }
    at
}

/// Whether none of the bytes of a block is one of these two.
#[inline]
fn is_plain_block(a: u8, b: u8, bytes: &[u8], at: usize) -> bool {
    let block = u8x16::from_slice(&bytes[at..]);
    lacks(block, a) & lacks(block, b)
}

/// Whether this byte is not in a block.
#[inline]
fn lacks(block: u8x16, byte: u8) -> bool {
    block.simd_eq(u8x16::splat(byte)).to_bitmask() == 0
}

/// Whether a byte is one of these two.
#[inline]
fn is_mark(a: u8, b: u8, byte: u8) -> bool {
    byte == a || byte == b
}
