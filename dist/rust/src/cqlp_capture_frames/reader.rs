// Written by dist/erase from crates/cqlp_capture_frames/src/reader.rt.
//! A frame of which bytes are read.

use crate::cqlp_capture_frames::drain::{begin_frame, behind, drain};
use crate::cqlp_capture_frames::noted::Noted;
use crate::cqlp_capture_frames::transcript::Transcript;
use crate::cqlp_decode::Decoder;
use crate::cqlp_note::Limits;
use crate::cqlp_text::{Pen, TextWriter};
use crate::cqlp_type::TypeTable;
use crate::kit_std::alloc::{AllocError};

/// The decoder of one frame, which has its memory while the frame is read.
pub(crate) struct FrameReader {
    decoder: Decoder,
    /// Whether more of the frame is read: it was not refused.
    is_open: bool,
    /// Where the frame begins.
    at: u64,
    /// What the decoder was handed of it.
    came: Noted,
}

impl FrameReader {
    /// Begins a frame at an offset, within these limits and with these types, if there are some. All memory is taken here.
    pub(crate) fn new(
        limits: Limits,
        at: u64,
        types: Option<TypeTable>,
    ) -> Result<Self, AllocError> {
        let Ok(mut decoder) = Decoder::new(limits) else {
            return Err(AllocError);
        };
        begin_frame(&mut decoder, types);
        Ok(FrameReader {
            decoder,
            is_open: true,
            at,
            came: Noted::new(),
        })
    }
}

impl FrameReader {
    /// Whether more of the frame is read.
    pub(crate) fn is_open(&self) -> bool {
        self.is_open
    }

    /// Takes bytes that come next of the frame.
    pub(crate) fn take<T: Transcript, P: Pen>(
        &mut self,
        bytes: &[u8],
        transcript: &mut T,
        writer: &mut TextWriter<P>,
    ) -> Result<(), T::Fault> {
        if !self.is_open {
            return Ok(());
        }
        self.is_open = false;
        self.came.note(bytes);
        match drain(&mut self.decoder, bytes, self.at, transcript, writer)? {
            None => {
                self.is_open = true;
                Ok(())
            }
            Some(refusal) => {
                transcript.refusal(behind(self.at, refusal.at), refusal.why, writer)
            }
        }
    }

    /// The frame came whole.
    pub(crate) fn end<T: Transcript, P: Pen>(
        &self,
        transcript: &mut T,
        writer: &mut TextWriter<P>,
    ) -> Result<(), T::Fault> {
        if !self.is_open {
            return Ok(());
        }
        transcript.end(self.decoder.table(), writer)
    }

    /// No more comes of the frame.
    pub(crate) fn close<T: Transcript, P: Pen>(
        &self,
        transcript: &mut T,
        writer: &mut TextWriter<P>,
    ) -> Result<(), T::Fault> {
        if !self.is_open {
            return Ok(());
        }
        transcript.close(writer)
    }
}
