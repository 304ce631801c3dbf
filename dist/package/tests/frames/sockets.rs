//! Targets that take little, and sockets that do not wait.

use super::words::bytes_of;
use super::written::digits_line;
use cqlp::{Cause, IoFault, OfSocket, Source, Target};
use std::io::{self, ErrorKind, Read, Write};

/// How many bytes a target takes a call.
const PIECE: usize = 7;

/// Takes some bytes, a few a call, and then fails.
pub struct Narrow {
    pub text: Vec<u8>,
    room: usize,
}

impl Narrow {
    /// With room for this many bytes in all.
    pub fn new(room: usize) -> Narrow {
        Narrow { text: Vec::new(), room }
    }
}

impl Target for Narrow {
    fn write(&mut self, bytes: &[u8]) -> Result<usize, IoFault> {
        let count = self.room.min(PIECE).min(bytes.len());
        if count == 0 && !bytes.is_empty() {
            return Err(IoFault);
        }
        self.text.extend(&bytes[..count]);
        self.room -= count;
        Ok(count)
    }
}

/// Takes some bytes and would then block once, again and again.
pub struct Stops {
    /// The bytes that it took.
    pub text: Vec<u8>,
    /// How many bytes it takes before it would block next.
    left: usize,
    /// How many it takes after that, each time.
    later: usize,
}

impl Stops {
    /// A socket that takes `first` bytes before it would block first, and `later` bytes before each later time.
    pub fn socket(first: usize, later: usize) -> OfSocket<Stops> {
        OfSocket::new(Stops { text: Vec::new(), left: first, later })
    }
}

impl Write for Stops {
    fn write(&mut self, buf: &[u8]) -> io::Result<usize> {
        let count = self.left.min(buf.len());
        if count == 0 && !buf.is_empty() {
            self.left = self.later;
            return Err(ErrorKind::WouldBlock.into());
        }
        self.text.extend(&buf[..count]);
        self.left -= count;
        Ok(count)
    }

    fn flush(&mut self) -> io::Result<()> {
        Ok(())
    }
}

/// Whether the last call of a socket that failed would block, and it took just as many bytes as a Write error says.
pub fn is_told(socket: &OfSocket<Stops>, written: u32) -> bool {
    socket.cause == Some(Cause::WouldBlock) && socket.inner.text.len() == written as usize
}

/// The kinds of errors, by their names.
const KINDS: [(&str, ErrorKind); 5] = [
    ("WouldBlock", ErrorKind::WouldBlock),
    ("Interrupted", ErrorKind::Interrupted),
    ("BrokenPipe", ErrorKind::BrokenPipe),
    ("TimedOut", ErrorKind::TimedOut),
    ("WriteZero", ErrorKind::WriteZero),
];

/// What a word says of a call: an error's kind, or in hexadecimal digits the bytes that a read gives, or as many as a write takes.
struct Scripted<'a>(&'a str);

impl Scripted<'_> {
    fn call(&self) -> io::Result<Vec<u8>> {
        match KINDS.iter().find(|(name, _)| *name == self.0) {
            Some((_, kind)) => Err((*kind).into()),
            None => Ok(bytes_of(self.0)),
        }
    }
}

impl Read for Scripted<'_> {
    fn read(&mut self, buf: &mut [u8]) -> io::Result<usize> {
        let bytes = self.call()?;
        let count = bytes.len().min(buf.len());
        buf[..count].copy_from_slice(&bytes[..count]);
        Ok(count)
    }
}

impl Write for Scripted<'_> {
    fn write(&mut self, buf: &[u8]) -> io::Result<usize> {
        Ok(self.call()?.len().min(buf.len()))
    }

    fn flush(&mut self) -> io::Result<()> {
        Ok(())
    }
}

/// Of a read of one socket for each word: what it answers, how many reads failed and were made, the cause, and the buffer of four
/// bytes.
pub fn said_of_reads(line: &str) -> String {
    let mut socket = OfSocket::new(Scripted(line));
    let reads = line.split(' ').map(|word| {
        socket.inner = Scripted(word);
        let mut buffer = [0; 4];
        let answer = Source::read(&mut socket, &mut buffer);
        format!("{answer:?} {} {} {:?} {}", socket.failures, socket.reads, socket.cause, digits_line(&buffer))
    });
    format!("== read | {line}\n{}", reads.collect::<String>())
}

/// Of a write of four bytes to one socket for each word: what it answers, how many failed, and the cause.
pub fn said_of_writes(line: &str) -> String {
    let mut socket = OfSocket::new(Scripted(line));
    let writes = line.split(' ').map(|word| {
        socket.inner = Scripted(word);
        let answer = Target::write(&mut socket, b"abcd");
        format!("{answer:?} {} {:?}\n", socket.failures, socket.cause)
    });
    format!("== write | {line}\n{}", writes.collect::<String>())
}
