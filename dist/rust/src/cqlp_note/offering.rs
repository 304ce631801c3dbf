// Written by dist/erase from crates/cqlp_note/src/offering.rt.
//! Bytes on their way to a target.

use crate::cqlp_note::streams::Target;

/// Passes bytes on until the target fails, and answers how many it took. A call that takes only some of the bytes is
/// followed by one with all the others, so at most one call takes all that it is given; no bytes take no call.
pub fn offer<W: Target>(target: &mut W, bytes: &[u8]) -> usize {
    let mut sent = 0;
    while sent < bytes.len() {
        let Ok(count) = target.write(&bytes[sent..]) else {
            break;
        };
        if count == 0 {
            break;
        }
        sent += count;
    }
    sent
}
