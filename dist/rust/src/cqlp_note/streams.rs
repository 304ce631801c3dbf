// Written by dist/erase from crates/cqlp_note/src/streams.rt.
//! Where bytes come from, and where they go.

#[cfg(feature = "std")]
use std::io::{Read, Write};

error! {
/// A reader or a writer that fails.
#[derive(Clone, Copy, Debug, PartialEq, Eq)]
#[error("a read or a write failed")]
pub struct IoFault;
}

/// What gives bytes, as std's `Read`.
pub trait Source {
    /// Reads some bytes into the buffer, and answers how many; 0 where it has some room, only at the end.
    ///
    /// # Errors
    ///
    /// A read that failed; it gave no bytes.
    fn read(&mut self, buffer: &mut [u8]) -> Result<usize, IoFault>;
}

/// What takes bytes, as std's `Write`.
pub trait Target {
    /// Takes the first bytes, and answers how many.
    ///
    /// # Errors
    ///
    /// A write that failed; it took no bytes.
    fn write(&mut self, bytes: &[u8]) -> Result<usize, IoFault>;
}

/// A reader or a writer of std's as a [`Source`] or a [`Target`]. A call is one call of the inner reader or writer,
/// with the whole buffer, and is not tried again. No contract of std's `Read` and `Write` counts calls, so that is
/// tested; which bytes came or went, how many calls failed, how many reads were made into how much room, and how many writes took
/// all of their bytes, is in the contracts.
pub struct OfStd<X> {
    /// The reader or writer.
    pub inner: X,
    /// How many calls failed, or took nothing of some bytes, up to 2^64 - 1.
    pub failures: u64,
    /// How many reads were made, up to 2^64 - 1.
    pub reads: u64,
    /// How many bytes of room all reads had, up to 2^64 - 1.
    pub asked: u64,
    /// How many writes took all of their bytes, up to 2^64 - 1.
    pub writes: u64,
}

impl<X> OfStd<X> {
    /// With no call made.
    pub fn new(inner: X) -> Self {
        OfStd {
            inner,
            failures: 0,
            reads: 0,
            asked: 0,
            writes: 0,
        }
    }

    /// The reader or writer.
    pub fn into_inner(self) -> X {
        let OfStd {
            inner,
            failures: _,
            reads: _,
            asked: _,
            writes: _,
        } = self;
        inner
    }
}

#[cfg(feature = "std")]
impl<R: Read> Source for OfStd<R> {
    fn read(&mut self, buffer: &mut [u8]) -> Result<usize, IoFault> {
        self.reads = self.reads.saturating_add(1);
        self.asked = self.asked.saturating_add(buffer.len() as u64);
        match self.inner.read(buffer) {
            Ok(count) => Ok(count),
            Err(_) => {
                self.failures = self.failures.saturating_add(1);
                Err(IoFault)
            }
        }
    }
}

#[cfg(feature = "std")]
impl<W: Write> Target for OfStd<W> {
    fn write(&mut self, bytes: &[u8]) -> Result<usize, IoFault> {
        match self.inner.write(bytes) {
            Ok(count) => {
                if count == bytes.len() {
                    self.writes = self.writes.saturating_add(1);
                } else if count == 0 {
                    self.failures = self.failures.saturating_add(1);
                }
                Ok(count)
            }
            Err(_) => {
                self.failures = self.failures.saturating_add(1);
                Err(IoFault)
            }
        }
    }
}
