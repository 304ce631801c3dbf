// Written by dist/erase from crates/cqlp_session/src/refusal.rt.
//! Why a core is not made.

use crate::kit_std::alloc::AllocError;

error! {
/// Why a core is not made.
#[derive(Clone, Copy, Debug, PartialEq, Eq)]
pub enum SlotsOrMemory {
    /// The number of slots is 0, or more than the 32,768 stream ids from 0 to 32,767. Section 2.3.
    #[error("the number of slots is not from 1 to 32768")]
    BadSlots,
    /// Memory for the slots was refused.
    #[error("no memory")]
    NoMemory,
}
}

impl From<AllocError> for SlotsOrMemory {
    fn from(_: AllocError) -> Self {
        SlotsOrMemory::NoMemory
    }
}
