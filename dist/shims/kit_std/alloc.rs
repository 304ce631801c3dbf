//! Memory that is refused.

error! {
/// Memory was refused.
#[derive(Clone, Copy, Debug, PartialEq, Eq)]
#[error("no memory")]
pub struct AllocError;
}

/// Memory was refused, and this comes back.
#[derive(Clone, Copy, Debug, PartialEq, Eq)]
pub struct AllocFailed<T>(pub T);

impl<T> From<AllocFailed<T>> for AllocError {
    fn from(_: AllocFailed<T>) -> AllocError {
        AllocError
    }
}
