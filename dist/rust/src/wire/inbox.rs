//! Whole frames, out of pieces of any size.

use alloc::vec::Vec;
use core::fmt;

use crate::cqlp_note::{Header, NoMemory};
use crate::wire::any_header::AnyHeader;

/// How much room there is at least for the next bytes.
const ROOM: usize = 16 << 10;

/// What the next bytes of a stream are.
#[derive(Clone, Copy, Debug, PartialEq, Eq)]
pub enum Arrival {
    /// A whole frame with this header.
    Frame(AnyHeader),
    /// Bytes of the frame with this header, which is not gathered: its header comes first.
    Passing(AnyHeader),
}

/// Gathers the bytes of a stream, which come in pieces of any size, to whole frames.
///
/// Frames that are not wanted, or are too long, are handed over in the pieces that came, so that a proxy passes them on and holds nothing
/// of them: also compressed ones, and those of other versions. From a frame of a version after 4 on all that comes is handed over so.
///
/// It asks for memory as bytes come, twice what it had each time, and never for what a header announces: for at most twice the bytes of
/// the longest frame that is gathered, and 32 KiB.
///
/// ```
/// use cqlp::wire::{Arrival, Inbox};
///
/// let mut inbox = Inbox::new(1 << 20);
/// let mut lengths = Vec::new();
/// for piece in [&[4, 0, 0, 1, 5, 0, 0][..], &[0, 0, 4, 0, 0, 2, 5, 0, 0, 0, 0]] {
///     inbox.push(piece)?;
///     while let Some((arrival, bytes)) = inbox.next(|header| header.opcode == 5) {
///         assert!(matches!(arrival, Arrival::Frame(header) if header.length == 0));
///         lengths.push(bytes.len());
///     }
/// }
/// assert_eq!(lengths, [9, 9]);
/// # Ok::<(), cqlp::NoMemory>(())
/// ```
pub struct Inbox {
    bytes: Vec<u8>,
    /// Where the bytes begin that were not handed over, and where they end.
    begin: usize,
    end: usize,
    /// What was handed over last.
    last: (usize, usize),
    longest: u32,
    /// How many bytes are still to come of a frame that is not gathered, and its header.
    passing: Option<(u64, AnyHeader)>,
}

impl fmt::Debug for Inbox {
    fn fmt(&self, f: &mut fmt::Formatter<'_>) -> fmt::Result {
        let held = self.end - self.begin;
        f.debug_struct("Inbox").field("held", &held).field("longest", &self.longest).finish_non_exhaustive()
    }
}

/// One that gathers all frames that version 4 allows.
impl Default for Inbox {
    fn default() -> Inbox {
        Inbox::new(Header::LONGEST_BODY)
    }
}

impl Inbox {
    /// Nothing came. Frames with bodies of at most `longest` bytes are gathered.
    #[must_use]
    pub const fn new(longest: u32) -> Inbox {
        Inbox { bytes: Vec::new(), begin: 0, end: 0, last: (0, 0), longest, passing: None }
    }

    /// Room for the next bytes, 16 KiB or more; [`filled`](Inbox::filled) says how many came.
    ///
    /// # Errors
    ///
    /// Memory that is refused.
    pub fn room(&mut self) -> Result<&mut [u8], NoMemory> {
        let held = self.end - self.begin;
        if self.begin > 0 && (held == 0 || self.bytes.len() - self.end < ROOM) {
            self.bytes.copy_within(self.begin..self.end, 0);
            (self.begin, self.end, self.last) = (0, held, (0, 0));
        }
        if self.bytes.len() - self.end < ROOM {
            let more = self.bytes.len().max(2 * ROOM);
            self.bytes.try_reserve_exact(more).map_err(|_| NoMemory)?;
            self.bytes.resize(self.bytes.len() + more, 0);
        }
        Ok(&mut self.bytes[self.end..])
    }

    /// So many bytes came into the room.
    pub fn filled(&mut self, count: usize) {
        self.end = self.end.saturating_add(count).min(self.bytes.len());
    }

    /// These bytes came.
    ///
    /// # Errors
    ///
    /// Memory that is refused; some of the bytes may be there then.
    pub fn push(&mut self, mut piece: &[u8]) -> Result<(), NoMemory> {
        while !piece.is_empty() {
            let room = self.room()?;
            let count = room.len().min(piece.len());
            room[..count].copy_from_slice(&piece[..count]);
            self.filled(count);
            piece = &piece[count..];
        }
        Ok(())
    }

    /// Reads once into the room, and answers how many bytes came: 0 at the end of the stream.
    ///
    /// # Errors
    ///
    /// Those of the reader, `WouldBlock` among them; `OutOfMemory` where there is no room.
    #[cfg(feature = "std")]
    pub fn receive(&mut self, mut from: impl std::io::Read) -> std::io::Result<usize> {
        let room = self.room().map_err(|_| std::io::ErrorKind::OutOfMemory)?;
        let count = from.read(room)?;
        self.filled(count);
        Ok(count)
    }

    /// What came next, with its bytes: a frame that is wanted, once it is whole, or bytes of another. None where more has to come.
    pub fn next(&mut self, wanted: impl FnOnce(&AnyHeader) -> bool) -> Option<(Arrival, &[u8])> {
        let arrival = self.advance(wanted)?;
        Some((arrival, self.bytes_of_last()))
    }

    /// The bytes of what was handed over last: until the next call of [`advance`](Inbox::advance), [`room`](Inbox::room) or one that calls it.
    #[must_use]
    pub fn bytes_of_last(&self) -> &[u8] {
        &self.bytes[self.last.0..self.last.1]
    }

    /// As [`next`](Inbox::next); the bytes are those of [`bytes_of_last`](Inbox::bytes_of_last).
    pub fn advance(&mut self, wanted: impl FnOnce(&AnyHeader) -> bool) -> Option<Arrival> {
        let held = self.rest();
        let (left, header) = match self.passing {
            Some(passing) => passing,
            None => {
                let header = AnyHeader::read(held)?;
                let size = header.size() + header.length as usize;
                if header.is_framed() && header.length <= self.longest && wanted(&header) {
                    if held.len() < size {
                        return None;
                    }
                    self.hand(size);
                    return Some(Arrival::Frame(header));
                }
                (if header.is_framed() { size as u64 } else { u64::MAX }, header)
            }
        };
        let count = left.min(held.len() as u64);
        if count == 0 {
            return None;
        }
        self.passing = if left == count { None } else { Some((if left == u64::MAX { left } else { left - count }, header)) };
        self.hand(count as usize);
        Some(Arrival::Passing(header))
    }

    /// The bytes that came and were not handed over: at the end of a stream, those of a frame that is not whole.
    #[must_use]
    pub fn rest(&self) -> &[u8] {
        &self.bytes[self.begin..self.end]
    }

    /// Whether more has to come of a frame that is not gathered.
    #[must_use]
    pub fn is_passing(&self) -> bool {
        self.passing.is_some()
    }

    /// How many bytes the body of a frame that is gathered may have.
    #[must_use]
    pub fn longest(&self) -> u32 {
        self.longest
    }

    /// Hands so many bytes over.
    fn hand(&mut self, count: usize) {
        self.last = (self.begin, self.begin + count);
        self.begin += count;
    }
}
