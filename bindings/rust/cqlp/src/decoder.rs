//! The decoder, its limits, and how a stream ends.

use crate::event::Event;
use crate::names::Reason;
use cqlp_sys as sys;
use std::error::Error;
use std::fmt;

/// How many events one call of the library puts.
const ROOM: usize = 128;

/// What a decoder holds at most, and what it reads.
#[derive(Clone, Copy, Debug, PartialEq, Eq)]
pub struct Limits {
    /// The bytes of one `[string]` or `[long string]`: 32 to 16,777,216.
    pub text: u32,
    /// The bytes of one `[bytes]`, `[short bytes]`, `[value]` or scalar cell: 32 to 16,777,216.
    pub cell: u32,
    /// The type options of one metadata, nested ones counted: 1 to 65,536.
    pub entries: u32,
    /// The nesting of one type, a column's own option having depth 1: 1 to 64.
    pub depth: u32,
    /// Whether cells are read by the types of their columns; else each is a raw scalar.
    pub types: bool,
    /// Whether a blob, custom or raw scalar longer than `cell` comes in parts of that size; else it is refused.
    pub parts: bool,
}

/// 1 MiB of a text and of a cell, 4,096 type options, 16 levels; with types, without parts.
impl Default for Limits {
    fn default() -> Limits {
        Limits {
            text: 1 << 20,
            cell: 1 << 20,
            entries: 4096,
            depth: 16,
            types: true,
            parts: false,
        }
    }
}

impl Limits {
    fn raw(&self) -> sys::cqlp_limits {
        sys::cqlp_limits {
            text: self.text,
            cell: self.cell,
            entries: self.entries,
            depth: self.depth,
            types: self.types.into(),
            parts: self.parts.into(),
        }
    }
}

/// The first limit, in this order, that is out of its range.
#[derive(Clone, Copy, Debug, PartialEq, Eq)]
pub enum BadLimit {
    /// `text` is not from 32 to 16,777,216.
    Text,
    /// `cell` is not from 32 to 16,777,216.
    Cell,
    /// `entries` is not from 1 to 65,536.
    Entries,
    /// `depth` is not from 1 to 64.
    Depth,
}

/// Why no decoder was made.
#[derive(Clone, Copy, Debug, PartialEq, Eq)]
pub enum NewError {
    /// A limit is out of its range.
    BadLimit(BadLimit),
    /// There is not as much memory as the limits allow to be held.
    NoMemory,
}

impl fmt::Display for NewError {
    fn fmt(&self, f: &mut fmt::Formatter<'_>) -> fmt::Result {
        let limit = match self {
            NewError::BadLimit(BadLimit::Text) => "text",
            NewError::BadLimit(BadLimit::Cell) => "cell",
            NewError::BadLimit(BadLimit::Entries) => "entries",
            NewError::BadLimit(BadLimit::Depth) => "depth",
            NewError::NoMemory => return f.write_str("no memory for a decoder"),
        };
        write!(f, "the limit `{limit}` is out of its range")
    }
}

impl Error for NewError {}

/// A stream is refused: from its offset `at` on it is no frame of the protocol, or past a limit.
#[derive(Clone, Copy, Debug, PartialEq, Eq)]
pub struct Refusal {
    /// The offset of the first byte of the field that could not be made.
    pub at: u64,
    /// Why it could not be made.
    pub reason: Reason,
}

/// As `cqlp check` writes it.
impl fmt::Display for Refusal {
    fn fmt(&self, f: &mut fmt::Formatter<'_>) -> fmt::Result {
        write!(f, "refused {} {}", self.at, self.reason)
    }
}

impl Error for Refusal {}

/// How a stream ends.
#[derive(Clone, Copy, Debug, PartialEq, Eq)]
pub enum Verdict {
    /// At a frame's end.
    Whole {
        /// How many bytes were used.
        bytes: u64,
    },
    /// Within a frame.
    Cut {
        /// The offset of the frame.
        at: u64,
        /// How many bytes were used.
        bytes: u64,
    },
    /// It is refused.
    Refused(Refusal),
}

impl Verdict {
    fn of(end: sys::cqlp_end) -> Verdict {
        match end.verdict {
            sys::CQLP_END_WHOLE => Verdict::Whole { bytes: end.bytes },
            sys::CQLP_END_CUT => Verdict::Cut {
                at: end.at,
                bytes: end.bytes,
            },
            _ => Verdict::Refused(Refusal {
                at: end.at,
                reason: Reason::of(end.reason),
            }),
        }
    }
}

/// The verdict line of `cqlp check`.
impl fmt::Display for Verdict {
    fn fmt(&self, f: &mut fmt::Formatter<'_>) -> fmt::Result {
        match self {
            Verdict::Whole { bytes } => write!(f, "whole {bytes}"),
            Verdict::Cut { at, bytes } => write!(f, "cut {at} {bytes}"),
            Verdict::Refused(refusal) => refusal.fmt(f),
        }
    }
}

/// What a decoder holds of the stream.
#[derive(Clone, Copy, Debug, PartialEq, Eq)]
pub struct Held {
    /// Bytes of a content that came in pieces: no more than the greater of `text` and `cell`.
    pub bytes: u32,
    /// The type options of the metadata begun last: no more than `entries`.
    pub entries: u32,
    /// The types or values around the one that is read: no more than `depth`.
    pub levels: u32,
}

/// Reads the frames of one stream.
///
/// It may be sent to another thread, as the library's handle may: that is proved. It is not `Sync`, which would be of no use, since
/// each call takes it by `&mut`: a `Mutex` shares it.
pub struct Decoder {
    // The library's handle is not copied while it has a decoder, so it has a place of its own.
    handle: Box<sys::cqlp_decoder>,
    room: Box<[sys::cqlp_event]>,
}

// SAFETY: include/cqlp.h lets a handle go to another thread between two calls, and `&mut` keeps calls apart. The places in `room` are
// read only through a batch, which borrows the decoder.
unsafe impl Send for Decoder {}

impl Decoder {
    /// A decoder at the start of a stream. All of its memory is asked for here.
    pub fn new(limits: Limits) -> Result<Decoder, NewError> {
        Decoder::by(sys::cqlp_new, limits)
    }

    /// The same, for a lenient reading: a content that its type does not have, by its length or by its bytes, comes as a leaf of the kind
    /// [`Kind::Raw`](crate::Kind::Raw) with all its bytes, bytes after the last field of a tuple or a user-defined value come as parts, and a
    /// type of an id that no kind has is a type node of the kind `Kind::Raw`; the reading goes on.
    pub fn lenient(limits: Limits) -> Result<Decoder, NewError> {
        Decoder::by(sys::cqlp_new_lenient, limits)
    }

    fn by(
        make: unsafe extern "C" fn(*const sys::cqlp_limits, *mut sys::cqlp_decoder) -> u32,
        limits: Limits,
    ) -> Result<Decoder, NewError> {
        let mut handle = Box::new(sys::cqlp_decoder::NONE);
        // SAFETY: both point to what their types say, and the handle has no decoder.
        made(unsafe { make(&limits.raw(), &mut *handle) })?;
        let room = vec![sys::cqlp_event::BLANK; ROOM].into_boxed_slice();
        Ok(Decoder { handle, room })
    }

    /// Takes the next bytes of the stream, and lends the events that they end, one after the other.
    ///
    /// Take events until there are no more: those not taken are lost, and so is what was not used of the input.
    pub fn decode<'a>(&'a mut self, input: &'a [u8]) -> Events<'a> {
        Events {
            decoder: self,
            input,
            next: 0,
            count: 0,
            stop: Stop::Full,
        }
    }

    /// Takes the next bytes of the stream, and lends a batch of the events that they end, which can be used together.
    ///
    /// Where it stops as [`Stop::Full`], give the rest of the input again, from [`Batch::used`] on, also where nothing is left of it.
    pub fn batch<'a>(&'a mut self, input: &'a [u8]) -> Batch<'a> {
        let (used, count, stop) = self.take(input);
        Batch {
            events: self.room[..count].iter(),
            used,
            stop,
        }
    }

    /// The library's handle, which has a decoder since `new`.
    pub(crate) fn handle(&mut self) -> &mut sys::cqlp_decoder {
        &mut self.handle
    }

    /// One call of the library: how many bytes were used, how many events were put, and why it stopped.
    fn take(&mut self, input: &[u8]) -> (usize, usize, Stop) {
        let mut batch = sys::cqlp_batch::default();
        // SAFETY: each points to as much as its type and the number after it say, none is null, and none overlap. The handle has a
        // decoder since `new`.
        let code = unsafe {
            sys::cqlp_next(
                &mut *self.handle,
                input.as_ptr(),
                input.len(),
                self.room.as_mut_ptr(),
                self.room.len(),
                &mut batch,
            )
        };
        debug_assert_eq!(code, sys::CQLP_DONE);
        let stop = match batch.stop {
            sys::CQLP_STOP_MORE => Stop::More,
            sys::CQLP_STOP_FULL => Stop::Full,
            _ => Stop::Refused(Refusal {
                at: batch.at,
                reason: Reason::of(batch.reason),
            }),
        };
        (batch.used, batch.events, stop)
    }

    /// How the stream ends, if it ends after the bytes that were used. It changes nothing.
    pub fn finish(&mut self) -> Verdict {
        let mut end = sys::cqlp_end::default();
        // SAFETY: both point to what their types say.
        let code = unsafe { sys::cqlp_finish(&mut *self.handle, &mut end) };
        debug_assert_eq!(code, sys::CQLP_DONE);
        Verdict::of(end)
    }

    /// How much is held of the stream. It changes nothing.
    pub fn held(&mut self) -> Held {
        let mut holding = sys::cqlp_holding::default();
        // SAFETY: both point to what their types say.
        let code = unsafe { sys::cqlp_held(&mut *self.handle, &mut holding) };
        debug_assert_eq!(code, sys::CQLP_DONE);
        Held {
            bytes: holding.bytes,
            entries: holding.entries,
            levels: holding.levels,
        }
    }
}

impl Drop for Decoder {
    fn drop(&mut self) {
        // SAFETY: it points to a handle.
        unsafe { sys::cqlp_free(&mut *self.handle) };
    }
}

impl fmt::Debug for Decoder {
    fn fmt(&self, f: &mut fmt::Formatter<'_>) -> fmt::Result {
        f.debug_struct("Decoder").finish_non_exhaustive()
    }
}

/// Why a batch ends.
#[derive(Clone, Copy, Debug, PartialEq, Eq)]
pub enum Stop {
    /// All of the input was used: give the bytes that come after it.
    More,
    /// Call again with the rest of the input.
    Full,
    /// The stream is refused, here and at every later call.
    Refused(Refusal),
}

/// The events that one call put, which all live until the next one.
#[derive(Clone, Debug)]
pub struct Batch<'a> {
    events: std::slice::Iter<'a, sys::cqlp_event>,
    used: usize,
    stop: Stop,
}

impl Batch<'_> {
    /// How many bytes of the input were used.
    pub fn used(&self) -> usize {
        self.used
    }

    /// Why it ends.
    pub fn stop(&self) -> Stop {
        self.stop
    }
}

impl<'a> Iterator for Batch<'a> {
    type Item = Event<'a>;

    fn next(&mut self) -> Option<Event<'a>> {
        // SAFETY: the library put the event, and the decoder and the input are borrowed for 'a.
        self.events.next().map(|raw| unsafe { Event::of(raw) })
    }

    fn size_hint(&self) -> (usize, Option<usize>) {
        self.events.size_hint()
    }
}

impl ExactSizeIterator for Batch<'_> {}

/// The events of a piece, lent one after the other: an event is to be let go before the next is taken.
///
/// ```compile_fail,E0499
/// # use cqlp::{Decoder, Limits};
/// # let mut decoder = Decoder::new(Limits::default()).unwrap();
/// let mut events = decoder.decode(&[0x04, 0, 0, 0, 0x05, 0, 0, 0, 0]);
/// let first = events.next_event();
/// let second = events.next_event();
/// println!("{first:?}");
/// ```
#[derive(Debug)]
pub struct Events<'a> {
    decoder: &'a mut Decoder,
    input: &'a [u8],
    next: usize,
    count: usize,
    stop: Stop,
}

impl Events<'_> {
    /// The next event; none where more bytes are wanted. After the last event of a stream that is refused, the refusal, at every call.
    pub fn next_event(&mut self) -> Result<Option<Event<'_>>, Refusal> {
        while self.next == self.count {
            match self.stop {
                Stop::More => return Ok(None),
                Stop::Refused(refusal) => return Err(refusal),
                Stop::Full => {
                    let (used, count, stop) = self.decoder.take(self.input);
                    self.input = &self.input[used..];
                    (self.next, self.count, self.stop) = (0, count, stop);
                }
            }
        }
        self.next += 1;
        // SAFETY: the library put the event in its last call. The decoder is not called, and the input stays, while it is borrowed.
        Ok(Some(unsafe { Event::of(&self.decoder.room[self.next - 1]) }))
    }
}

/// What a code of `cqlp_new` or `cqlp_check` says.
fn made(code: u32) -> Result<(), NewError> {
    match code {
        sys::CQLP_DONE => Ok(()),
        sys::CQLP_BAD_TEXT => Err(NewError::BadLimit(BadLimit::Text)),
        sys::CQLP_BAD_CELL => Err(NewError::BadLimit(BadLimit::Cell)),
        sys::CQLP_BAD_ENTRIES => Err(NewError::BadLimit(BadLimit::Entries)),
        sys::CQLP_BAD_DEPTH => Err(NewError::BadLimit(BadLimit::Depth)),
        _ => Err(NewError::NoMemory),
    }
}

/// How a stream ends that is there whole: what a decoder with these limits says of it.
///
/// ```
/// use cqlp::{check, Limits, Reason, Refusal, Verdict};
///
/// let long = [0x84, 0, 0, 0, 0x08, 0x10, 0, 0, 1];
/// let refusal = Refusal { at: 5, reason: Reason::BadLength };
/// assert_eq!(check(Limits::default(), &long), Ok(Verdict::Refused(refusal)));
/// ```
pub fn check(limits: Limits, stream: &[u8]) -> Result<Verdict, NewError> {
    let mut end = sys::cqlp_end::default();
    // SAFETY: each points to as much as its type and the number after it say, none is null, and none overlap.
    made(unsafe { sys::cqlp_check(&limits.raw(), stream.as_ptr(), stream.len(), &mut end) })?;
    Ok(Verdict::of(end))
}
