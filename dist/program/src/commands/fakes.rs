//! Readers that give pieces or fail, and writers that take little or fail.
use crate::cqlp_capture_streams::CaptureInput;
use crate::cqlp_note::{IoFault, Source, Target};
use std::cell::Cell;

/// Gives pieces of these sizes, and then pieces of the last size; and fails once, after so many others.
pub struct Pieces<'a> {
    rest: &'a [u8],
    sizes: [usize; 3],
    before: Option<usize>,
    pub has_failed: bool,
    pub reads: usize,
}

impl<'a> Pieces<'a> {
    pub fn new(bytes: &'a [u8], sizes: [usize; 3]) -> Self {
        Pieces { rest: bytes, sizes, before: None, has_failed: false, reads: 0 }
    }

    pub fn failing(bytes: &'a [u8], size: usize, before: usize) -> Self {
        Pieces { before: Some(before), ..Pieces::new(bytes, [size; 3]) }
    }

    /// How many bytes it has still to give.
    pub fn left(&self) -> usize {
        self.rest.len()
    }
}

impl Source for Pieces<'_> {
    fn read(&mut self, room: &mut [u8]) -> Result<usize, IoFault> {
        self.reads += 1;
        if self.before == Some(0) {
            (self.before, self.has_failed) = (None, true);
            return Err(IoFault);
        }
        self.before = self.before.map(|before| before - 1);
        let [first, second, last] = self.sizes;
        let (piece, rest) = self.rest.split_at(first.min(self.rest.len()).min(room.len()));
        room[..piece.len()].copy_from_slice(piece);
        (self.rest, self.sizes) = (rest, [second, last, last]);
        Ok(piece.len())
    }
}

/// Gives pieces, and looks before each how much has come out by then.
pub struct Looks<'a> {
    pub pieces: Pieces<'a>,
    pub out: &'a Cell<usize>,
    /// How much that was.
    pub seen: Vec<usize>,
}

impl Source for Looks<'_> {
    fn read(&mut self, room: &mut [u8]) -> Result<usize, IoFault> {
        self.seen.push(self.out.get());
        self.pieces.read(room)
    }
}

impl CaptureInput for Pieces<'_> {}

impl CaptureInput for Looks<'_> {}

/// Takes at most `size` bytes a call, up to some number in all, and then fails.
pub struct Narrow {
    pub text: Vec<u8>,
    room: usize,
    size: usize,
    /// How many of its calls failed.
    pub failures: usize,
}

impl Narrow {
    /// A text that is not long takes no more memory.
    pub fn new(room: usize, size: usize) -> Self {
        Narrow { text: Vec::with_capacity(1_024), room, size, failures: 0 }
    }
}

impl Target for Narrow {
    fn write(&mut self, bytes: &[u8]) -> Result<usize, IoFault> {
        let count = self.room.min(self.size).min(bytes.len());
        if count == 0 && !bytes.is_empty() {
            self.failures += 1;
            return Err(IoFault);
        }
        self.text.extend_from_slice(&bytes[..count]);
        self.room -= count;
        Ok(count)
    }
}

/// Takes all bytes, and counts its calls.
#[derive(Default)]
pub struct Calls(pub usize);

impl Target for Calls {
    fn write(&mut self, bytes: &[u8]) -> Result<usize, IoFault> {
        self.0 += 1;
        Ok(bytes.len())
    }
}

/// Adds up the bytes that it takes.
pub struct Adds<'a>(pub &'a Cell<usize>);

impl Target for Adds<'_> {
    fn write(&mut self, bytes: &[u8]) -> Result<usize, IoFault> {
        self.0.set(self.0.get() + bytes.len());
        Ok(bytes.len())
    }
}
