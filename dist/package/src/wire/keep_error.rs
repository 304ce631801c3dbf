//! Readers and writers that keep the error of a call.

use std::fmt;
use std::io::{self, Read, Write};

/// A reader or a writer of std's that keeps the error of the last call that failed. [`OfStd`](crate::OfStd) and what reads or writes by
/// it say only that a call failed: within it, this keeps why.
///
/// ```
/// use cqlp::wire::KeepError;
/// use cqlp::{Decoder, Event, Limits, OfStd, Outcome, Sink, SinkFault, run};
/// use std::io::{self, ErrorKind, Read};
///
/// struct Broken;
///
/// impl Read for Broken {
///     fn read(&mut self, _: &mut [u8]) -> io::Result<usize> {
///         Err(io::Error::new(ErrorKind::ConnectionReset, "the peer is gone"))
///     }
/// }
///
/// struct Nothing;
///
/// impl Sink for Nothing {
///     fn take(&mut self, _: u64, _: &Event<'_>) -> Result<(), SinkFault> {
///         Ok(())
///     }
/// }
///
/// let (mut decoder, mut source) = (Decoder::new(Limits::DEFAULT)?, OfStd::new(KeepError::new(Broken)));
/// assert!(matches!(run(&mut decoder, &mut source, &mut Nothing, 1), Outcome::ReadFault { .. }));
/// assert_eq!(source.inner.take_error().unwrap().to_string(), "the peer is gone");
/// # Ok::<(), cqlp::NewError>(())
/// ```
pub struct KeepError<X> {
    /// The reader or writer.
    pub inner: X,
    error: Option<io::Error>,
}

impl<X> fmt::Debug for KeepError<X> {
    fn fmt(&self, f: &mut fmt::Formatter<'_>) -> fmt::Result {
        f.debug_struct("KeepError").field("error", &self.error).finish_non_exhaustive()
    }
}

impl<X> KeepError<X> {
    /// With no call made.
    #[must_use]
    pub const fn new(inner: X) -> KeepError<X> {
        KeepError { inner, error: None }
    }

    /// The error of the last call that failed, once: with the system's number and the words that it came with.
    pub fn take_error(&mut self) -> Option<io::Error> {
        self.error.take()
    }

    /// Keeps the error of a call, and answers one of the same kind.
    fn keep<T>(&mut self, answer: io::Result<T>) -> io::Result<T> {
        answer.map_err(|error| {
            let kind = error.kind();
            self.error = Some(error);
            kind.into()
        })
    }
}

impl<R: Read> Read for KeepError<R> {
    fn read(&mut self, buffer: &mut [u8]) -> io::Result<usize> {
        let answer = self.inner.read(buffer);
        self.keep(answer)
    }
}

impl<W: Write> Write for KeepError<W> {
    fn write(&mut self, bytes: &[u8]) -> io::Result<usize> {
        let answer = self.inner.write(bytes);
        self.keep(answer)
    }

    fn flush(&mut self) -> io::Result<()> {
        let answer = self.inner.flush();
        self.keep(answer)
    }
}
