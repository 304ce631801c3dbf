// Written by dist/erase from crates/cqlp_tcp_reassembly/src/fin.rt.
//! Where FIN lies.

/// The position of FIN, if that has come.
pub(crate) struct FinPosition {
    /// One more than it, or 0.
    next: u64,
}

impl FinPosition {
    /// It has not come.
    pub(crate) fn none() -> Self {
        FinPosition { next: 0 }
    }

    /// It has come.
    pub(crate) fn at(position: u64) -> Self {
        FinPosition { next: position + 1 }
    }

    pub(crate) fn get(&self) -> Option<u64> {
        if self.next == 0 {
            None
        } else {
            Some(self.next - 1)
        }
    }
}
