// Written by dist/erase from crates/cqlp_capture_frames/src/noted.rt.
//! Bytes that only proofs read. They take no memory, and noting them does nothing.

use core::marker::{PhantomData};

/// Bytes that were noted, one piece after the other. Contracts read them as `bytes`.
pub(crate) struct Noted {
    marker: PhantomData<u8>,
}

impl Noted {
    /// Nothing was noted.
    pub(crate) fn new() -> Noted {
        Noted {
            marker: PhantomData,
        }
    }

    /// These come after those that were noted.
    pub(crate) fn note(&mut self, _bytes: &[u8])
    {}
}
