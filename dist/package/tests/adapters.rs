//! Readers and writers of std's, as sources and targets.
#![forbid(unsafe_code)]

use cqlp::{Cause, OfSocket, OfStd, Source, Target};
use std::io::{self, ErrorKind, Read, Write};

/// What a reader or a writer makes of one call.
#[derive(Clone, Copy)]
enum Scripted {
    /// At most this many bytes.
    Bytes(usize),
    /// An error.
    Fault(ErrorKind),
}

/// Gives each of its calls one outcome, counts them, and keeps the length of the last one's buffer.
struct Recorder {
    outcome: Scripted,
    calls: u32,
    asked: usize,
}

impl Recorder {
    fn call(&mut self, len: usize) -> io::Result<usize> {
        self.calls += 1;
        self.asked = len;
        match self.outcome {
            Scripted::Bytes(most) => Ok(most.min(len)),
            Scripted::Fault(kind) => Err(kind.into()),
        }
    }
}

impl Read for Recorder {
    fn read(&mut self, buf: &mut [u8]) -> io::Result<usize> {
        self.call(buf.len())
    }
}

impl Write for Recorder {
    fn write(&mut self, buf: &[u8]) -> io::Result<usize> {
        self.call(buf.len())
    }

    fn flush(&mut self) -> io::Result<()> {
        self.calls += 1;
        Ok(())
    }
}

/// A length of up to eight bytes, an outcome, and what a read and a write answer, with the failures counted, the calls and
/// the bytes asked for.
const ROWS: [(usize, Scripted, &str, &str); 8] = [
    (8, Scripted::Bytes(8), "Ok(8) 0 1 8", "Ok(8) 0 1 8"),
    (8, Scripted::Bytes(3), "Ok(3) 0 1 8", "Ok(3) 0 1 8"),
    (0, Scripted::Bytes(8), "Ok(0) 0 1 0", "Ok(0) 0 1 0"),
    (8, Scripted::Fault(ErrorKind::TimedOut), "Err(IoFault) 1 1 8", "Err(IoFault) 1 1 8"),
    (5, Scripted::Fault(ErrorKind::Interrupted), "Err(IoFault) 1 1 5", "Err(IoFault) 1 1 5"),
    (5, Scripted::Bytes(1), "Ok(1) 0 1 5", "Ok(1) 0 1 5"),
    (8, Scripted::Bytes(0), "Ok(0) 0 1 8", "Ok(0) 1 1 8"),
    (0, Scripted::Fault(ErrorKind::BrokenPipe), "Err(IoFault) 1 1 0", "Err(IoFault) 1 1 0"),
];

fn recording(outcome: Scripted) -> OfStd<Recorder> {
    OfStd::new(Recorder { outcome, calls: 0, asked: 0 })
}

#[test]
fn each_call_is_one_call_with_all_bytes() {
    for (len, outcome, of_read, of_write) in ROWS {
        let (mut reader, mut writer) = (recording(outcome), recording(outcome));
        let read = Source::read(&mut reader, &mut [0; 8][..len]);
        let said = format!("{read:?} {} {} {}", reader.failures, reader.inner.calls, reader.inner.asked);
        assert_eq!(said, of_read);
        let written = Target::write(&mut writer, &b"abcdefgh"[..len]);
        let said = format!("{written:?} {} {} {}", writer.failures, writer.inner.calls, writer.inner.asked);
        assert_eq!(said, of_write);
    }
}

#[test]
fn bytes_go_from_memory_to_memory() {
    let (mut reader, mut writer) = (OfStd::new(&b"abcde"[..]), OfStd::new(Vec::new()));
    for wanted in [3, 2, 0] {
        let mut buffer = [0; 3];
        assert_eq!(Source::read(&mut reader, &mut buffer), Ok(wanted));
        assert_eq!(Target::write(&mut writer, &buffer[..wanted]), Ok(wanted));
    }
    assert_eq!(writer.into_inner(), b"abcde");
    assert!(reader.into_inner().is_empty());
}

/// A socket keeps why the last call failed that did: of a length and an outcome, after a read and after a write.
#[test]
fn sockets_keep_the_cause() {
    for (len, outcome, of_read, of_write) in [
        (8, Scripted::Bytes(3), None, None),
        (0, Scripted::Bytes(0), None, None),
        (8, Scripted::Bytes(0), None, Some(Cause::TookNothing)),
        (8, Scripted::Fault(ErrorKind::WouldBlock), Some(Cause::WouldBlock), Some(Cause::WouldBlock)),
        (8, Scripted::Fault(ErrorKind::Interrupted), Some(Cause::Interrupted), Some(Cause::Interrupted)),
        (8, Scripted::Fault(ErrorKind::BrokenPipe), Some(Cause::Failed), Some(Cause::Failed)),
    ] {
        let socket = || OfSocket::new(Recorder { outcome, calls: 0, asked: 0 });
        let (mut reader, mut writer) = (socket(), socket());
        let (read, written) = (Source::read(&mut reader, &mut [0; 8][..len]), Target::write(&mut writer, &b"abcdefgh"[..len]));
        assert_eq!((reader.cause, writer.cause), (of_read, of_write));
        assert_eq!((reader.failures, writer.failures), (of_read.is_some().into(), of_write.is_some().into()));
        assert!(read.is_err() <= of_read.is_some() && written.is_err() <= of_write.is_some());
        assert_eq!((reader.into_inner().calls, writer.into_inner().calls), (1, 1));
    }
}
