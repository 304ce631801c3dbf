// Written by dist/erase from crates/cqlp_skip/src/skipping.rt.
//! A decoder that goes on after a frame whose body is refused.

use crate::cqlp_skip::fed::{NotSkippable, Skipped, fed_from, passed_of, refusal_from, used_of};
use crate::cqlp_skip::frame::{OpenFrame, stream_offset};
use crate::cqlp_skip::shifting::Shifting;
use crate::cqlp_decode::{Capacity, Decoder, Fed, Finish, GiveError, Held, NewError, Sink};
use crate::cqlp_note::Limits;
use crate::cqlp_type::TypeTable;

/// Reads a stream of frames from pieces of any size, as a `Decoder` does, with offsets in the whole stream. Where it
/// is refused in the body of a frame it can pass over the rest of that frame, and go on with the next header. It takes all
/// its memory when it is made.
pub struct SkippingDecoder {
    /// The decoder of the present stretch, which begins where a stream begins or after a frame that was passed over.
    decoder: Decoder,
    /// Where the present stretch begins in the whole stream.
    base: u64,
    /// How many bytes of the whole stream were used.
    used: u64,
    /// The frame under way.
    frame: Option<OpenFrame>,
    /// Where the header is of the frame that was passed over last.
    last: u64,
}

impl SkippingDecoder {
    /// A decoder at the start of a stream, with the memory of a `Decoder` within these limits: four requests for memory,
    /// and the only ones.
    ///
    /// # Errors
    ///
    /// Limits out of their ranges, and memory that is refused.
    #[cfg_attr(not(feature = "cli"), inline)]
    pub fn new(limits: Limits) -> Result<Self, NewError> {
        match Decoder::new(limits) {
            Ok(decoder) => Ok(Self::around(decoder)),
            Err(error) => Err(error),
        }
    }

    /// The same, for a lenient reading, as [`Decoder::lenient`] has it: a content that its type does not have is emitted as a raw scalar, and
    /// the frame is read on.
    ///
    /// # Errors
    ///
    /// As `new`.
    #[cfg_attr(not(feature = "cli"), inline)]
    pub fn lenient(limits: Limits) -> Result<Self, NewError> {
        match Decoder::lenient(limits) {
            Ok(decoder) => Ok(Self::around(decoder)),
            Err(error) => Err(error),
        }
    }
}

impl SkippingDecoder {
    /// What reads a whole stream with a decoder at its start.
    #[cfg_attr(not(feature = "cli"), inline)]
    fn around(decoder: Decoder) -> Self {
        SkippingDecoder {
            decoder,
            base: 0,
            used: 0,
            frame: None,
            last: 0,
        }
    }

    /// Hands all events of a piece to the sink, at their offsets in the whole stream, up to a refusal or a fault of the
    /// sink. The bytes of a frame that was passed over are used without being looked at. The next call goes on after the
    /// bytes that were used. A refusal is said again until the frame is passed over.
    pub fn feed<S: Sink>(&mut self, input: &[u8], sink: S) -> (Fed, S) {
        let passed = passed_of(self.base, self.used, input.len());
        let mut shifting = Shifting {
            sink,
            base: self.base,
            frame: self.frame,
        };
        let fed = self.decoder.feed(&input[passed..], &mut shifting);
        let Shifting {
            sink,
            base: _,
            frame,
        } = shifting;
        self.frame = frame;
        let fed = fed_from(self.base, passed, fed);
        self.used = self.used.saturating_add(used_of(fed, input.len()) as u64);
        (fed, sink)
    }

    /// Gives types for a page without metadata of the present stretch, as `Decoder::give` does. While a frame is passed over that is
    /// the stretch after it. The table that was held before comes back; one that is not taken comes back with the reason, and
    /// nothing changes: after a refusal none is taken until the frame is passed over.
    ///
    /// # Errors
    ///
    /// The first reason against the table, which comes back with it: nothing changes.
    #[cfg_attr(not(feature = "cli"), inline)]
    pub fn give(&mut self, table: TypeTable) -> Result<Option<TypeTable>, GiveError> {
        self.decoder.give(table)
    }

    /// Takes back the table that was given over the present stretch, if one is held and not in use. After a refusal none is in
    /// use, so a table that the next stretch is to have is taken back before the frame is passed over, and given again.
    #[cfg_attr(not(feature = "cli"), inline)]
    pub fn take_given(&mut self) -> Option<TypeTable> {
        self.decoder.take_given()
    }

    /// Passes over the rest of the frame in whose body the stream is refused: the next calls use its bytes without looking at
    /// them, and go on with the header after it. Nothing is held of them. A table of types that was given and not taken back
    /// is let go of: over the next stretch nothing is given yet. Where the stream is not refused, or no header of the frame was
    /// handed out, nothing changes.
    ///
    /// # Errors
    ///
    /// A stream that is not refused, or in which no header of the frame was handed out: nothing changes.
    #[cfg_attr(not(feature = "cli"), inline)]
    pub fn skip(&mut self) -> Result<Skipped, NotSkippable> {
        let Finish::Refused(refusal) = self.decoder.finish() else {
            return Err(NotSkippable::NotRefused);
        };
        let Some(frame) = self.frame else {
            return Err(NotSkippable::InHeader);
        };
        let Some(end) = frame.end_within(self.base, self.used) else {
            return Err(NotSkippable::TooFar);
        };
        let skipped = Skipped {
            at: stream_offset(self.base, frame.at),
            header: frame.header,
            refusal: refusal_from(self.base, refusal),
            rest: end - self.used,
        };
        let _ = self.decoder.restart();
        self.base = end;
        self.frame = None;
        self.last = skipped.at;
        Ok(skipped)
    }

    /// How the stream ends, if it ends after the bytes that were used.
    #[cfg_attr(not(feature = "cli"), inline)]
    #[must_use]
    pub fn finish(&self) -> Finish {
        if self.used < self.base {
            return Finish::Cut {
                frame_at: self.last,
                bytes: self.used,
            };
        }
        match self.decoder.finish() {
            Finish::Whole { .. } => Finish::Whole { bytes: self.used },
            Finish::Cut { frame_at, .. } => Finish::Cut {
                frame_at: stream_offset(self.base, frame_at),
                bytes: self.used,
            },
            Finish::Refused(refusal) => Finish::Refused(refusal_from(self.base, refusal)),
        }
    }

    /// What is held of the stream, as `Decoder::held` says it.
    #[cfg_attr(not(feature = "cli"), inline)]
    #[must_use]
    pub fn held(&self) -> Held {
        self.decoder.held()
    }

    /// The places that the decoder has memory for, as `Decoder::capacity` says them.
    #[cfg_attr(not(feature = "cli"), inline)]
    #[must_use]
    pub fn capacity(&self) -> Capacity {
        self.decoder.capacity()
    }

    /// The types of the metadata begun last in the present stretch, as `Decoder::table` has them.
    #[cfg_attr(not(feature = "cli"), inline)]
    #[must_use]
    pub fn table(&self) -> &TypeTable {
        self.decoder.table()
    }

    /// How many bytes of the whole stream were used.
    #[cfg_attr(not(feature = "cli"), inline)]
    #[must_use]
    pub fn used(&self) -> u64 {
        self.used
    }
}
