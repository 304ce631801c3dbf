// Written by dist/erase from crates/cqlp_cell/src/gather.rt.
//! Contents out of pieces.

use crate::cqlp_note::{ContentForm, ContentPlace, FieldAdvance, FieldOutline, Notation, Partial, Prim};

/// A content that is whole after this many bytes of the input.
#[derive(Clone, Copy)]
pub(crate) struct Found {
    pub used: usize,
    pub content: FieldOutline,
}

/// Takes the next bytes of a content of `len` bytes from `start` in the input on. It begins here, at offset `at` in the
/// stream, or was begun before. A content that lies whole in the input is not copied.
#[inline]
pub(crate) fn gather(
    partial: &mut Partial,
    begun: bool,
    len: u32,
    at: u64,
    start: usize,
    input: &[u8],
) -> Option<Found> {
    if begun {
        resume(partial, len, input)
    } else if input.len() - start < len as usize {
        begin(partial, len, at, &input[start..]);
        None
    } else {
        empty(partial);
        Some(Found {
            used: start + len as usize,
            content: FieldOutline::Content {
                form: ContentForm::Bytes,
                lies: ContentPlace::InInput {
                    start,
                    len: len as usize,
                },
            },
        })
    }
}

/// Takes the next bytes of a content that was begun before.
#[cfg_attr(not(feature = "cli"), inline)]
fn resume(partial: &mut Partial, len: u32, input: &[u8]) -> Option<Found> {
    match partial.advance(input) {
        FieldAdvance::More { .. } => None,
        FieldAdvance::Got { used, item } => Some(Found {
            used,
            content: item,
        }),
        FieldAdvance::Refused(_) => unreachable!(),
    }
}

/// Begins a content that goes on after the input.
#[cfg_attr(not(feature = "cli"), inline)]
fn begin(partial: &mut Partial, len: u32, at: u64, input: &[u8]) {
    partial.begin(Notation::Content(len), len, at, at + u64::from(len));
    match partial.advance(input) {
        FieldAdvance::More { .. } => {}
        FieldAdvance::Got { .. } => unreachable!(),
        FieldAdvance::Refused(_) => unreachable!(),
    }
}

/// Empties the buffer.
#[inline]
pub(crate) fn empty(partial: &mut Partial) {
    if partial.held() > 0 {
        clear(partial);
    }
}

/// Empties the buffer by a content without bytes.
#[cfg_attr(not(feature = "cli"), inline)]
fn clear(partial: &mut Partial) {
    partial.begin(Notation::Content(0), 0, 0, 0);
    match partial.advance(&[]) {
        FieldAdvance::More { .. } => unreachable!(),
        FieldAdvance::Got { .. } => {}
        FieldAdvance::Refused(_) => unreachable!(),
    }
}

/// The bytes that lie there.
#[inline]
pub(crate) fn lend_bytes<'a>(
    partial: &'a Partial,
    input: &'a [u8],
    content: FieldOutline,
) -> &'a [u8] {
    match partial.lend(input, content) {
        Prim::Bytes(Some(bytes)) => bytes,
        _ => unreachable!(),
    }
}
