// Written by dist/erase from crates/cqlp_sockets/src/cause.rt.
//! Why calls fail.

#[cfg(feature = "std")]
use std::io;
#[cfg(feature = "std")]
use std::io::ErrorKind;

/// Why a call of a reader or a writer failed.
#[derive(Clone, Copy, Debug, PartialEq, Eq)]
pub enum Cause {
    /// The call would wait: it is to be made again once the socket is ready. [`ErrorKind::WouldBlock`].
    WouldBlock,
    /// A signal came first: it may be made again at once. [`ErrorKind::Interrupted`].
    Interrupted,
    /// A writer took nothing of some bytes, and said no error.
    TookNothing,
    /// Any other error. A socket is of no more use then.
    Failed,
}

impl Cause {
    /// What an error of std's says.
    #[must_use]
    pub fn of(error: &io::Error) -> Cause {
        match error.kind() {
            ErrorKind::WouldBlock => Cause::WouldBlock,
            ErrorKind::Interrupted => Cause::Interrupted,
            _ => Cause::Failed,
        }
    }
}
