//! Frames as values, out of their bytes and into them.

use alloc::string::String;
use alloc::vec::Vec;
use core::fmt;

use crate::cqlp_build::{BuildError, BuildLimits, FrameBuilder};
use crate::cqlp_compose::Composer;
use crate::cqlp_decode::{Decoder, Fed};
use crate::cqlp_encode::{EncodeError, encode};
use crate::cqlp_grammar::{Event, Sink, SinkFault};
use crate::cqlp_message::Frame;
use crate::cqlp_note::{Field, IoFault, Limits, Target};
use crate::wire::fault::WireError;

/// What a [`FrameReader`] takes of a frame, unless it is made with other limits: 100,000 fields, types 16 deep, and 16 MiB.
pub const FRAME_LIMITS: BuildLimits = BuildLimits { fields: 100_000, depth: 16, bytes: 16 << 20 };

/// A [`Target`] that grows: a `Vec` to which bytes are written, whose memory may be refused.
///
/// ```
/// use cqlp::frame::{Frame, Message, encode};
/// use cqlp::wire::Outbox;
///
/// let mut out = Outbox::default();
/// encode(&Frame::plain(1, Message::Options), &mut out)?;
/// assert_eq!(out.bytes(), [4, 0, 0, 1, 5, 0, 0, 0, 0]);
/// # Ok::<(), cqlp::frame::EncodeError>(())
/// ```
#[derive(Clone, Debug, Default, PartialEq, Eq)]
pub struct Outbox {
    bytes: Vec<u8>,
    /// How many of them were sent.
    sent: usize,
}

impl Outbox {
    /// The bytes that were not sent.
    #[must_use]
    pub fn bytes(&self) -> &[u8] {
        &self.bytes[self.sent..]
    }

    /// So many of them were sent.
    pub fn sent(&mut self, count: usize) {
        self.sent = self.sent.saturating_add(count).min(self.bytes.len());
        if self.sent == self.bytes.len() {
            self.bytes.clear();
            self.sent = 0;
        }
    }

    /// Writes all that was not sent. What the writer did not take stays, so that a later call goes on.
    ///
    /// # Errors
    ///
    /// Those of the writer, `WouldBlock` among them; `WriteZero` where it takes nothing.
    #[cfg(feature = "std")]
    pub fn send(&mut self, mut to: impl std::io::Write) -> std::io::Result<()> {
        use std::io::ErrorKind;
        while !self.bytes().is_empty() {
            match to.write(self.bytes()) {
                Ok(0) => return Err(ErrorKind::WriteZero.into()),
                Ok(count) => self.sent(count),
                Err(fault) if fault.kind() == ErrorKind::Interrupted => {}
                Err(fault) => return Err(fault),
            }
        }
        to.flush()
    }

    /// Takes back what was written after so many bytes that were not sent.
    pub(crate) fn cut(&mut self, len: usize) {
        self.bytes.truncate(self.sent.saturating_add(len));
    }
}

impl Target for Outbox {
    fn write(&mut self, bytes: &[u8]) -> Result<usize, IoFault> {
        if self.sent > self.bytes().len() {
            self.bytes.drain(..self.sent);
            self.sent = 0;
        }
        self.bytes.try_reserve(bytes.len()).map_err(|_| IoFault)?;
        self.bytes.extend_from_slice(bytes);
        Ok(bytes.len())
    }
}

impl Frame {
    /// Its bytes, as [`encode`] writes them.
    ///
    /// # Errors
    ///
    /// [`WireError::Unfit`] where no bytes spell it, and [`WireError::NoMemory`].
    ///
    /// ```
    /// use cqlp::frame::{Frame, Message};
    ///
    /// assert_eq!(Frame::plain(1, Message::Options).to_bytes()?, [4, 0, 0, 1, 5, 0, 0, 0, 0]);
    /// # Ok::<(), cqlp::wire::WireError>(())
    /// ```
    pub fn to_bytes(&self) -> Result<Vec<u8>, WireError> {
        let mut out = Outbox::default();
        encode(self, &mut out)?;
        Ok(out.bytes)
    }
}

/// Makes values of whole frames, one after the other, with the memory of one decoder.
///
/// ```
/// use cqlp::frame::Message;
/// use cqlp::wire::FrameReader;
///
/// let frame = FrameReader::new()?.read(&[4, 0, 0, 1, 5, 0, 0, 0, 0])?;
/// assert_eq!((frame.stream, frame.message), (1, Message::Options));
/// # Ok::<(), cqlp::wire::WireError>(())
/// ```
pub struct FrameReader {
    decoder: Decoder,
    builder: FrameBuilder,
}

impl fmt::Debug for FrameReader {
    fn fmt(&self, f: &mut fmt::Formatter<'_>) -> fmt::Result {
        f.debug_struct("FrameReader").finish_non_exhaustive()
    }
}

impl FrameReader {
    /// One with [`Limits::DEFAULT`] and [`FRAME_LIMITS`].
    ///
    /// # Errors
    ///
    /// Memory that is refused.
    pub fn new() -> Result<FrameReader, WireError> {
        FrameReader::with_limits(Limits::DEFAULT, FRAME_LIMITS)
    }

    /// One with these limits: the first on what is held of a frame while its bytes are read, the others on its value.
    ///
    /// # Errors
    ///
    /// A limit out of its range, and memory that is refused.
    pub fn with_limits(limits: Limits, build: BuildLimits) -> Result<FrameReader, WireError> {
        Ok(FrameReader { decoder: Decoder::new(limits)?, builder: FrameBuilder::new(build) })
    }

    /// The value of a frame, its header first. Bytes after the frame are not looked at.
    ///
    /// # Errors
    ///
    /// [`WireError::Refused`], [`WireError::Build`], and [`WireError::Cut`] where the bytes end within the frame.
    pub fn read(&mut self, frame: &[u8]) -> Result<Frame, WireError> {
        self.decoder.restart();
        self.builder.clear();
        let mut sink = Built { builder: &mut self.builder, made: None };
        match self.decoder.feed(frame, &mut sink) {
            Fed::Refused { refusal, .. } => Err(refusal.into()),
            Fed::More => Err(WireError::Cut),
            Fed::Fault { .. } => sink.made.unwrap_or(Err(BuildError::NoFrame)).map_err(WireError::Build),
        }
    }
}

/// Builds a frame, and gives up once it is built, or at the first fault.
struct Built<'b> {
    builder: &'b mut FrameBuilder,
    made: Option<Result<Frame, BuildError>>,
}

impl Sink for Built<'_> {
    fn take(&mut self, _at: u64, event: &Event<'_>) -> Result<(), SinkFault> {
        self.made = self.builder.take(event).map(|built| built.map(|built| built.frame)).transpose();
        if self.made.is_some() { Err(SinkFault) } else { Ok(()) }
    }
}

/// Writes frames again with some of their texts altered, one after the other, with the memory of one decoder.
///
/// ```
/// use cqlp::frame::{Frame, Message, QueryParams};
/// use cqlp::wire::TextAlterer;
/// use cqlp::{Consistency, Field};
///
/// let query = |text| Frame::plain(1, Message::query(text, QueryParams::new(Consistency::One))).to_bytes();
/// let mut alterer = TextAlterer::new(1 << 20)?;
/// let altered = alterer.alter(&query("USE shop")?, |field, text| (field == Field::Query).then(|| text.replace("shop", "store")))?;
/// assert_eq!(altered, Some(query("USE store")?));
/// # Ok::<(), cqlp::wire::WireError>(())
/// ```
pub struct TextAlterer {
    decoder: Decoder,
    limits: BuildLimits,
}

impl fmt::Debug for TextAlterer {
    fn fmt(&self, f: &mut fmt::Formatter<'_>) -> fmt::Result {
        f.debug_struct("TextAlterer").finish_non_exhaustive()
    }
}

impl TextAlterer {
    /// One of frames whose bodies have at most so many bytes, as they come and as they go.
    ///
    /// # Errors
    ///
    /// Memory that is refused.
    pub fn new(longest: u32) -> Result<TextAlterer, WireError> {
        let limits = BuildLimits { fields: longest, bytes: longest, ..FRAME_LIMITS };
        Ok(TextAlterer { decoder: Decoder::new(Limits::DEFAULT)?, limits })
    }

    /// The frame with other texts, where `alter` answers some; None where it answers none, so that the frame goes on as it came. It is
    /// asked of each text with its field.
    ///
    /// # Errors
    ///
    /// [`WireError::Refused`], [`WireError::Cut`] and [`WireError::Build`].
    pub fn alter(&mut self, frame: &[u8], alter: impl FnMut(Field, &str) -> Option<String>) -> Result<Option<Vec<u8>>, WireError> {
        self.decoder.restart();
        let mut sink = Altering { composer: Composer::new(self.limits), alter, is_altered: false, is_whole: false, fault: None };
        match self.decoder.feed(frame, &mut sink) {
            Fed::Refused { refusal, .. } => Err(refusal.into()),
            Fed::Fault { .. } => Err(sink.fault.unwrap_or(BuildError::NoFrame).into()),
            Fed::More if !sink.is_whole => Err(WireError::Cut),
            Fed::More if !sink.is_altered => Ok(None),
            Fed::More => Ok(Some(sink.composer.write()?)),
        }
    }
}

/// Composes a frame of the events of another, with other texts.
struct Altering<F> {
    composer: Composer,
    alter: F,
    is_altered: bool,
    is_whole: bool,
    fault: Option<BuildError>,
}

impl<F: FnMut(Field, &str) -> Option<String>> Sink for Altering<F> {
    fn take(&mut self, _at: u64, event: &Event<'_>) -> Result<(), SinkFault> {
        let other = match *event {
            Event::Text { field, text } => (self.alter)(field, text).map(|text| (field, text)),
            _ => None,
        };
        self.is_altered |= other.is_some();
        self.is_whole = matches!(event, Event::End { .. });
        let taken = match &other {
            Some((field, text)) => self.composer.take(&Event::Text { field: *field, text }),
            None => self.composer.take(event),
        };
        self.fault = taken.err();
        if self.fault.is_some() { Err(SinkFault) } else { Ok(()) }
    }
}
