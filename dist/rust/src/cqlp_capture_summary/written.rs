// Written by dist/erase from crates/cqlp_capture_summary/src/written.rt.
//! What is written of a fingerprint so far.

use crate::kit_host::prelude::{KitVec};
use crate::cqlp_capture_summary::class::is_opening;

/// The greatest number of bytes of a fingerprint.
const MOST: usize = 256;

/// The bytes that are written, and whether all were.
pub(crate) struct Written {
    len: usize,
    bytes: [u8; MOST],
    is_whole: bool,
}

impl Written {
    /// Nothing is written.
    pub(crate) fn new(is_whole: bool) -> Self {
        Written {
            len: 0,
            bytes: [0; MOST],
            is_whole,
        }
    }

    pub(crate) fn as_slice(&self) -> &[u8] {
        &self.bytes[..self.len]
    }

    pub(crate) fn is_whole(&self) -> bool {
        self.is_whole
    }

    /// Writes a byte, if there is room for it.
    pub(crate) fn kit_push(&mut self, byte: u8) {
        if self.len < MOST {
            self.bytes[self.len] = byte;
            self.len += 1;
        } else {
            self.is_whole = false;
        }
    }

    /// Takes the last bytes back.
    pub(crate) fn cut(&mut self, count: usize) {
        self.len = self.len.saturating_sub(count);
    }

    /// The byte that is so many from the end, the last at 1, or 0.
    pub(crate) fn back(&self, count: usize) -> u8 {
        if count <= self.len {
            self.bytes[self.len - count]
        } else {
            0
        }
    }

    /// Writes one space, behind something else.
    pub(crate) fn space(&mut self) {
        let last = self.back(1);
        if last != b' ' && last != 0 {
            self.kit_push(b' ');
        }
    }

    /// Takes a space at the end back.
    pub(crate) fn trim(&mut self) {
        if self.back(1) == b' ' {
            self.cut(1);
        }
    }

    /// The place before a space, or the same place.
    fn behind_space(&self, count: usize) -> usize {
        if self.back(count) == b' ' {
            count + 1
        } else {
            count
        }
    }

    fn separator_at(&self) -> usize {
        self.behind_space(1)
    }

    fn before_separator(&self) -> usize {
        self.behind_space(self.separator_at() + 1)
    }

    /// Whether a list of literals ends at a place.
    fn is_list_at(&self, count: usize) -> bool {
        self.back(count) == b'+' && self.back(count + 1) == b'?'
    }

    /// Writes a literal, behind others in a list.
    pub(crate) fn literal(&mut self) {
        let before = self.before_separator();
        if self.back(before) == b'?' || self.is_list_at(before) {
            self.join(self.back(self.separator_at()));
        } else {
            self.kit_push(b'?');
        }
    }

    /// Writes a literal behind a literal and this byte.
    fn join(&mut self, separator: u8) {
        if separator == b',' {
            self.list();
        } else if separator == b':' {
            self.cut(self.before_separator() - 1);
        } else {
            self.kit_push(b'?');
        }
    }

    /// Writes a literal behind a literal and a comma.
    fn list(&mut self) {
        let before = self.before_separator();
        let is_list = self.is_list_at(before);
        self.cut(before - 1);
        if !is_list {
            self.kit_push(b'+');
        }
    }

    /// Whether a sign is at the end that belongs to a number behind it.
    fn has_sign(&self) -> bool {
        let last = self.back(1);
        (last == b'+' || last == b'-') && is_opening(self.back(self.behind_space(2)))
    }

    /// Takes a sign back that belongs to a number behind it.
    pub(crate) fn drop_sign(&mut self) {
        if self.has_sign() {
            self.cut(1);
        }
    }

    /// Writes a dollar sign, or a literal where a text begins behind another one.
    pub(crate) fn push_or_literal(&mut self, byte: u8) {
        if self.back(1) == b'$' {
            self.cut(1);
            self.literal();
        } else {
            self.kit_push(byte);
        }
    }

    /// Writes a byte, or a space where a comment begins with this byte behind that other one.
    pub(crate) fn push_or_space(&mut self, before: u8, byte: u8) {
        if self.back(1) == before {
            self.cut(1);
            self.space();
        } else {
            self.kit_push(byte);
        }
    }
}
