// Written by dist/erase from crates/cqlp_capture_exchanges/src/batch_name.rt.
//! What a BATCH is called in a summary.

use crate::cqlp_capture_exchanges::label::Label;

/// How many bytes of a statement's text there are at most.
pub(crate) const MOST: usize = 250;

/// The word `BATCH`, and the text of the first statement or its first bytes.
pub(crate) fn batch_name(text: &[u8]) -> Label {
    let mut name = Label::new();
    name.add(b"BATCH ");
    name.add(front_of(text));
    name
}

/// The first bytes of a text.
fn front_of(text: &[u8]) -> &[u8] {
    &text[..MOST.min(text.len())]
}
