// Written by dist/erase from crates/cqlp_observer/src/frame_record.rt.
//! A frame in fewer bytes.

use crate::cqlp_observer::message::{Extent, SeenFrame, SeenMessage, is_no_later};
use crate::cqlp_note::Header;

/// A frame, as it is kept while it waits: 40 bytes in place of 56.
pub(crate) struct FrameRecord {
    at: u64,
    begun: u64,
    ended: u64,
    header: Header,
    extent: Extent,
    is_begun_known: bool,
    is_ended_known: bool,
}

impl FrameRecord {
    #[inline(always)]
    pub(crate) fn new(frame: &SeenFrame) -> Self {
        let (is_begun_known, begun) = parts_of(frame.begun);
        let (is_ended_known, ended) = parts_of(frame.ended);
        FrameRecord {
            header: frame.header,
            at: frame.at,
            begun,
            ended,
            extent: frame.extent,
            is_begun_known,
            is_ended_known,
        }
    }

    #[inline(always)]
    pub(crate) fn frame(&self) -> SeenFrame {
        SeenFrame {
            header: self.header,
            at: self.at,
            begun: time_of(self.is_begun_known, self.begun),
            ended: time_of(self.is_ended_known, self.ended),
            extent: self.extent,
        }
    }
}

/// Whether a time is known, and its number, or 0.
#[inline(always)]
pub(crate) fn parts_of(time: Option<u64>) -> (bool, u64) {
    match time {
        Some(time) => (true, time),
        None => (false, 0),
    }
}

/// The time with this number, if it is known.
#[inline(always)]
pub(crate) fn time_of(is_known: bool, time: u64) -> Option<u64> {
    if is_known { Some(time) } else { None }
}

/// A message as it waits.
pub(crate) struct MessageRecord<T> {
    frame: FrameRecord,
    kept: T,
}

impl<T> MessageRecord<T> {
    #[inline(always)]
    pub(crate) fn new(message: SeenMessage<T>) -> Self {
        MessageRecord {
            frame: FrameRecord::new(&message.frame),
            kept: message.kept,
        }
    }

    #[inline(always)]
    pub(crate) fn into_message(self) -> SeenMessage<T> {
        SeenMessage {
            frame: self.frame.frame(),
            kept: self.kept,
        }
    }

    #[inline(always)]
    pub(crate) fn kept(&self) -> &T {
        &self.kept
    }

    /// The stream id.
    #[inline(always)]
    pub(crate) fn stream(&self) -> i16 {
        self.frame.header.stream
    }

    /// Whether it and the next under its stream id are a request and its response, as [`SeenMessage::meets`] says.
    #[inline(always)]
    pub(crate) fn meets(&self, next: &SeenMessage<T>) -> bool {
        let frame = self.frame.frame();
        if frame.header.response {
            next.is_request() && is_no_later(next.frame.begun, frame.begun)
        } else {
            !next.is_request()
        }
    }
}
