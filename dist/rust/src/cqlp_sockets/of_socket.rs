// Written by dist/erase from crates/cqlp_sockets/src/of_socket.rt.
//! Readers and writers of std's that keep why a call failed.

use crate::cqlp_sockets::cause::Cause;
use crate::cqlp_note::{IoFault, Source, Target};
#[cfg(feature = "std")]
use std::io;
#[cfg(feature = "std")]
use std::io::{Read, Write};

/// A reader or a writer of std's as a [`Source`] or a [`Target`], which keeps why the last call failed that did. A call is one
/// call of the inner reader or writer, with the whole buffer, and is not tried again.
///
/// After `Outcome::ReadFault` of `run`, and after a Write error of the encoder, `cause` says whether
/// the socket is to be waited for.
pub struct OfSocket<X> {
    /// The reader or writer.
    pub inner: X,
    /// How many calls failed, or took nothing of some bytes, up to 2^64 - 1.
    pub failures: u64,
    /// How many reads were made, up to 2^64 - 1.
    pub reads: u64,
    /// How many bytes of room all reads had, up to 2^64 - 1.
    pub asked: u64,
    /// How many writes took all of their bytes, up to 2^64 - 1.
    pub writes: u64,
    /// Why the last of the calls that failed did; None where none has failed.
    pub cause: Option<Cause>,
}

impl<X> OfSocket<X> {
    /// With no call made.
    pub fn new(inner: X) -> Self {
        OfSocket {
            inner,
            failures: 0,
            reads: 0,
            asked: 0,
            writes: 0,
            cause: None,
        }
    }

    /// The reader or writer.
    pub fn into_inner(self) -> X {
        let OfSocket {
            inner,
            failures: _,
            reads: _,
            asked: _,
            writes: _,
            cause: _,
        } = self;
        inner
    }

    /// Keeps why a call failed.
    fn fail(&mut self, cause: Cause) {
        self.cause = Some(cause);
        self.failures = self.failures.saturating_add(1);
    }

    /// Keeps why a call failed that answered this, if it did.
    fn keep(&mut self, answer: io::Result<usize>) -> Result<usize, IoFault> {
        match answer {
            Ok(count) => Ok(count),
            Err(error) => {
                self.fail(Cause::of(&error));
                Err(IoFault)
            }
        }
    }
}

#[cfg(feature = "std")]
impl<R: Read> Source for OfSocket<R> {
    fn read(&mut self, buffer: &mut [u8]) -> Result<usize, IoFault> {
        self.reads = self.reads.saturating_add(1);
        self.asked = self.asked.saturating_add(buffer.len() as u64);
        let read = self.inner.read(buffer);
        self.keep(read)
    }
}

#[cfg(feature = "std")]
impl<W: Write> Target for OfSocket<W> {
    fn write(&mut self, bytes: &[u8]) -> Result<usize, IoFault> {
        let written = self.inner.write(bytes);
        let count = self.keep(written)?;
        if count == bytes.len() {
            self.writes = self.writes.saturating_add(1);
        } else if count == 0 {
            self.fail(Cause::TookNothing);
        }
        Ok(count)
    }
}
