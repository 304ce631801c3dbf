// Written by dist/erase from crates/cqlp_text/src/sending.rt.
//! Bytes that go to a target at once.

use crate::cqlp_grammar::SinkFault;
use crate::cqlp_note::{Target, offer};

/// Appends a text as it is. A fault is the writer's own.
pub fn put_text<W: Target>(text: &str, w: &mut W) -> Result<(), SinkFault> {
    send(w, text.as_bytes())
}

/// Passes on all of the bytes.
#[inline(always)]
pub(crate) fn send<W: Target>(target: &mut W, bytes: &[u8]) -> Result<(), SinkFault> {
    if offer(target, bytes) < bytes.len() {
        Err(SinkFault)
    } else {
        Ok(())
    }
}
