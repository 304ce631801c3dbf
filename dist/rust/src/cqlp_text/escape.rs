// Written by dist/erase from crates/cqlp_text/src/escape.rt.
//! The escapes of a text: a quote, a backslash, and each byte that does not print.

use crate::kit_std::prelude::{KitVec};
use crate::cqlp_text::pen::Pen;
use crate::cqlp_text::text_writer::TextWriter;
use crate::cqlp_grammar::SinkFault;
use crate::kit_std::simd::prelude::*;

/// How many bytes are looked at at once.
const BLOCK: usize = 16;

impl<P: Pen> TextWriter<P> {
    /// Takes bytes as they are written between quotes; those that need no escape are taken as they are, many at once.
    #[inline]
    pub(crate) fn put_escaped(&mut self, bytes: &[u8]) -> Result<(), SinkFault> {
        let mut rest = bytes;
        while !rest.is_empty() {
            let plain = plain_len(rest);
            self.put(&rest[..plain])?;
            let Some((byte, after)) = rest[plain..].split_first() else {
                return Ok(());
            };
            self.put_byte(*byte)?;
            rest = after;
        }
        Ok(())
    }

    /// Takes a byte as it is written between quotes.
    fn put_byte(&mut self, byte: u8) -> Result<(), SinkFault> {
        if is_plain(byte) {
            return self.put(&[byte]);
        }
        match byte {
            b'"' => self.put(b"\\\""),
            b'\\' => self.put(b"\\\\"),
            _ => {
                self.put(b"\\x")?;
                self.put_hex(&[byte])
            }
        }
    }

    /// Takes the bytes of a text in one line, where each that does not print is escaped.
    pub fn put_in_one_line(&mut self, bytes: &[u8]) -> Result<(), SinkFault> {
        for byte in bytes {
            self.put_printed(*byte)?;
        }
        Ok(())
    }

    /// Takes a byte as it is written in a line.
    fn put_printed(&mut self, byte: u8) -> Result<(), SinkFault> {
        if prints(byte) {
            self.put(&[byte])
        } else {
            self.put_byte(byte)
        }
    }
}

/// How many bytes at the front need no escape.
#[inline(always)]
pub(crate) fn plain_len(bytes: &[u8]) -> usize {
    let mut at = plain_blocks(bytes);
    while at < bytes.len() && is_plain(bytes[at]) {
        at += 1;
    }
    at
}

/// Whether no byte needs an escape.
#[inline(always)]
pub(crate) fn is_plain_text(bytes: &[u8]) -> bool {
    plain_len(bytes) == bytes.len()
}

/// How many blocks at the front need no escape, in bytes.
#[inline(always)]
fn plain_blocks(bytes: &[u8]) -> usize {
    let mut at = 0;
    while bytes.len() - at >= BLOCK && is_plain_block(bytes, at) {
        at += BLOCK;
    }
    at
}

/// Whether none of the bytes of a block needs an escape.
#[inline(always)]
fn is_plain_block(bytes: &[u8], at: usize) -> bool {
    let block = u8x16::from_slice(&bytes[at..]);
    none_below(block, 32) & lacks(block, b'"') & lacks(block, b'\\') & lacks(block, 127)
}

/// Whether no byte of a block is below this one.
#[inline(always)]
fn none_below(block: u8x16, byte: u8) -> bool {
    block.simd_lt(u8x16::splat(byte)).to_bitmask() == 0
}

/// Whether this byte is not in a block.
#[inline(always)]
fn lacks(block: u8x16, byte: u8) -> bool {
    block.simd_eq(u8x16::splat(byte)).to_bitmask() == 0
}

/// Whether a byte is written as it is between quotes.
#[inline(always)]
pub(crate) fn is_plain(byte: u8) -> bool {
    byte >= 32 && byte != b'"' && byte != b'\\' && byte != 127
}

/// Whether a byte is written as it is in a line.
fn prints(byte: u8) -> bool {
    byte >= 32 && byte != 127
}
