// Written by dist/erase from crates/cqlp_read_value/src/error.rt.
//! Why no value was read.

use crate::cqlp_note::Refusal;
use crate::kit_std::alloc::{AllocError, AllocFailed};

error! {
/// Why no value was read of bytes.
#[derive(Clone, Copy, Debug, PartialEq, Eq)]
pub enum ReadError {
    /// The bytes are refused at this offset in them.
    #[error("{0:?}")]
    Refused(Refusal),
    /// In the type a `Plain` is of the kind `Raw` or of one that has parameters, so it is the type of no cell.
    #[error("the type of a cell is not formed")]
    Unformed,
    /// Memory was refused.
    #[error("no memory")]
    NoMemory,
}
}

impl From<AllocError> for ReadError {
    fn from(_: AllocError) -> Self {
        ReadError::NoMemory
    }
}

impl<T> From<AllocFailed<T>> for ReadError {
    fn from(_: AllocFailed<T>) -> Self {
        ReadError::NoMemory
    }
}
