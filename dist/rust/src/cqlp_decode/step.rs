// Written by dist/erase from crates/cqlp_decode/src/step.rt.
//! What calls of a decoder return.

use crate::cqlp_grammar::Event;
use crate::cqlp_note::Refusal;

/// What one call makes of the input.
#[derive(Clone, Copy, Debug, PartialEq, Eq)]
pub enum Step<'a> {
    /// An event, whose field begins at this offset of the stream; an end's offset is the frame's end. This many bytes of
    /// the input were used, **which may be none**: the end of a frame or of an open value comes from a call of its own.
    Event {
        /// The offset of its first byte in the stream; of an end, the offset behind what ends.
        at: u64,
        /// How many bytes of the input were used, 0 for an end that the bytes before them decided.
        used: usize,
        /// The event, whose contents are lent from the input or from the decoder.
        event: Event<'a>,
    },
    /// All of the input was used, and more is wanted. **Only this says that no event is left in the bytes so far.**
    More {
        /// How many bytes of the input were used: all of them.
        used: usize,
    },
    /// The stream is refused, here and at every later call; nothing was used.
    Refused(Refusal),
}

error! {
/// A sink failed at an event, which ends this many bytes after the start of the input.
#[derive(Clone, Copy, Debug, PartialEq, Eq)]
#[error("the sink gave up after {used} bytes")]
pub struct FaultAfter {
    /// How many bytes of the input were used, up to the end of the event at which the sink failed.
    pub used: usize,
}
}

/// The places that a decoder has memory for, but for those of a table that the caller gave.
#[derive(Clone, Copy, Debug, PartialEq, Eq)]
pub struct Capacity {
    /// For the bytes of one content.
    pub bytes: usize,
    /// For the type options of one metadata.
    pub entries: usize,
    /// For the types around the one that is read.
    pub open_types: usize,
    /// For the values around the one that is read.
    pub open_values: usize,
}

/// What a decoder holds of the stream.
#[derive(Clone, Copy, Debug, PartialEq, Eq)]
pub struct Held {
    /// The bytes of a content that came in pieces.
    pub bytes: u32,
    /// The type options of the metadata begun last, and of the table that the caller gave.
    pub entries: u32,
    /// The types or values around the one that is read.
    pub levels: u32,
}
