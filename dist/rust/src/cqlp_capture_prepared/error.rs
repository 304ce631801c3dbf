// Written by dist/erase from crates/cqlp_capture_prepared/src/error.rt.
//! Why nothing can be kept.

use crate::kit_std::alloc::AllocError;

error! {
/// Why the types of statements cannot be kept.
#[derive(Clone, Copy, Debug, PartialEq, Eq)]
pub enum NewPreparedError {
    #[error("a limit is 0")]
    BadLimit,
    #[error("no memory")]
    NoMemory,
}
}

impl From<AllocError> for NewPreparedError {
    fn from(_: AllocError) -> NewPreparedError {
        NewPreparedError::NoMemory
    }
}
