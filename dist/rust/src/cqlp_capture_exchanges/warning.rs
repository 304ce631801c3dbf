// Written by dist/erase from crates/cqlp_capture_exchanges/src/warning.rt.
//! The warnings of a response.

use crate::cqlp_capture_exchanges::statement::{has, text_front};
use crate::cqlp_note::Header;

/// A warning, as far as it is there: the longest front of its text that is UTF-8, which is whole where it is as long as the length before it says.
#[derive(Clone, Copy)]
pub(crate) struct Warning<'a> {
    pub text: &'a str,
    pub is_whole: bool,
}

/// Warnings, one after the other, up to the first one whose length is not there.
#[derive(Clone, Copy)]
pub(crate) struct Warnings<'a> {
    /// How many there are to be.
    pub left: u16,
    pub bytes: &'a [u8],
}

/// The warnings of a response, by the bytes before its message; none where the body is compressed, by the header's flags. Section 2.2 of
/// `native_protocol_v4.spec`.
pub(crate) fn warnings_of<'a>(header: &Header, announced: &'a [u8]) -> Warnings<'a> {
    if has(header.flags, 0x01) {
        return no_warnings();
    }
    if has(header.flags, 0x08) {
        listed(behind_trace_id(header.flags, announced))
    } else {
        no_warnings()
    }
}

fn no_warnings() -> Warnings<'static> {
    Warnings {
        left: 0,
        bytes: &[],
    }
}

/// What comes behind the tracing id, if there is one.
fn behind_trace_id(flags: u8, announced: &[u8]) -> &[u8] {
    if has(flags, 0x02) {
        &announced[announced.len().min(16)..]
    } else {
        announced
    }
}

/// The strings of a \[string list\]. Section 3 of `native_protocol_v4.spec`.
fn listed(bytes: &[u8]) -> Warnings<'_> {
    match bytes.split_first_chunk::<2>() {
        Some((count, rest)) => Warnings {
            left: u16::from_be_bytes(*count),
            bytes: rest,
        },
        None => no_warnings(),
    }
}

impl<'a> Warnings<'a> {
    /// The first one, and the others.
    pub(crate) fn split_first(&self) -> Option<(Warning<'a>, Warnings<'a>)> {
        if self.left == 0 {
            return None;
        }
        let (len, content) = self.bytes.split_first_chunk::<2>()?;
        let len = u16::from_be_bytes(*len);
        let others = Warnings {
            left: self.left - 1,
            bytes: behind(len, content),
        };
        Some((warning_in(len, content), others))
    }

    /// Whether all of the text of each of them is there.
    pub(crate) fn are_whole(&self) -> bool {
        let mut rest = *self;
        while let Some((warning, others)) = rest.split_first() {
            if !warning.is_whole {
                return false;
            }
            rest = others;
        }
        true
    }
}

/// A warning of so many bytes, as far as it is there.
fn warning_in(len: u16, content: &[u8]) -> Warning<'_> {
    let there = content.len().min(len as usize);
    let text = text_front(&content[..there]);
    Warning {
        text,
        is_whole: text.len() == len as usize,
    }
}

/// What comes behind so many bytes.
fn behind(len: u16, content: &[u8]) -> &[u8] {
    &content[content.len().min(len as usize)..]
}
