// Written by dist/erase from crates/cqlp_capture_frames/src/direction.rt.
//! One direction of a connection.

use crate::kit_host::prelude::{Box, KitBox};
use crate::cqlp_capture_frames::drain::behind;
use crate::cqlp_capture_frames::reader::FrameReader;
use crate::cqlp_capture_frames::transcript::Transcript;
use crate::cqlp_note::{Header, Limits};
use crate::cqlp_observer::{Heads, Heard, HeardStep, Unread};
use crate::cqlp_tcp_reassembly::StreamStep;
use crate::cqlp_text::{Pen, TextWriter};
use crate::cqlp_type::TypeTable;
use crate::kit_std::alloc::{AllocError};

/// One direction of a connection: where its frames begin and end, and the decoder of the frame of which bytes are read. A frame is read as a
/// stream of its own, so that a refusal, a gap or a compressed frame does not end the reading. It has memory while a frame is read, for its
/// decoder.
pub struct Direction {
    limits: Limits,
    responses: bool,
    heads: Heads,
    /// The decoder of the present frame; where there is none, its bytes are passed over.
    reader: Option<Box<FrameReader>>,
}

impl Direction {
    /// A direction of which nothing came, that of the responses or that of the requests, whose frames are read within these limits. Takes no
    /// memory.
    pub fn new(limits: Limits, responses: bool) -> Self {
        Direction {
            limits,
            responses,
            heads: Heads::new(responses, false),
            reader: None,
        }
    }
}

impl Direction {
    /// Nothing came. Its first byte begins a frame, where `from_start`; else the first header that a segment begins with does.
    pub fn restart(&mut self, from_start: bool) {
        self.heads = Heads::new(self.responses, from_start);
        self.reader = None;
    }

    /// Whether a frame is read, for which it has memory.
    pub fn is_open(&self) -> bool {
        match &self.reader {
            Some(reader) => reader.is_open(),
            None => false,
        }
    }

    /// Takes what it delivers at an offset, with its bytes, and reports to the transcript what happens. Where there is no room for the memory of a
    /// frame, those that begin are passed over.
    pub fn hear<T: Transcript, P: Pen>(
        &mut self,
        has_room: bool,
        step: StreamStep,
        at: u64,
        bytes: &[u8],
        transcript: &mut T,
        writer: &mut TextWriter<P>,
    ) -> Result<(), T::Fault> {
        match step {
            StreamStep::Began { syn } => {
                self.close(transcript, writer)?;
                self.restart(syn);
                Ok(())
            }
            StreamStep::Payload { from, .. } => {
                self.hear_bytes(has_room, at, from == 0, bytes, transcript, writer)
            }
            StreamStep::Held { begins, .. } => {
                self.hear_bytes(has_room, at, begins, bytes, transcript, writer)
            }
            StreamStep::Gap { length, cause, .. } => {
                let _ = self.heads.gap(length, None);
                self.close(transcript, writer)?;
                transcript.gap(at, length, cause, writer)
            }
            StreamStep::Ended | StreamStep::Reset => {
                let _ = self.heads.end();
                self.close(transcript, writer)
            }
            StreamStep::Kept | StreamStep::Done => Ok(()),
        }
    }

    /// No more comes of the frame that is read, if one is.
    pub fn close<T: Transcript, P: Pen>(
        &mut self,
        transcript: &mut T,
        writer: &mut TextWriter<P>,
    ) -> Result<(), T::Fault> {
        match self.reader.take() {
            Some(reader) => reader.close(transcript, writer),
            None => Ok(()),
        }
    }

    /// The frame that is read came whole, if one is.
    fn end<T: Transcript, P: Pen>(
        &mut self,
        transcript: &mut T,
        writer: &mut TextWriter<P>,
    ) -> Result<(), T::Fault> {
        match self.reader.take() {
            Some(reader) => reader.end(transcript, writer),
            None => Ok(()),
        }
    }

    /// Takes bytes from an offset on, the first of which begins a segment or not.
    fn hear_bytes<T: Transcript, P: Pen>(
        &mut self,
        has_room: bool,
        at: u64,
        begins: bool,
        bytes: &[u8],
        transcript: &mut T,
        writer: &mut TextWriter<P>,
    ) -> Result<(), T::Fault> {
        let mut unread = Unread::new(bytes, begins);
        let mut end = at;
        while unread.steps > 0 {
            let HeardStep { used, heard } = self.heads.take(unread.bytes, None, unread.begins);
            end = behind(end, used as u64);
            self.report(
                has_room,
                end,
                heard,
                &unread.bytes[..used],
                transcript,
                writer,
            )?;
            if is_done(heard) {
                return Ok(());
            }
            unread = unread.after(used);
        }
        Ok(())
    }

    /// Takes bytes that end at an offset, and what they are.
    fn report<T: Transcript, P: Pen>(
        &mut self,
        has_room: bool,
        end: u64,
        heard: Heard,
        bytes: &[u8],
        transcript: &mut T,
        writer: &mut TextWriter<P>,
    ) -> Result<(), T::Fault> {
        match heard {
            Heard::Begins(header) => {
                let at = end.saturating_sub(9);
                self.begin(has_room, at, &header, transcript, writer)
            }
            Heard::Body => self.take_body(bytes, transcript, writer),
            Heard::Ends(_) => self.end(transcript, writer),
            Heard::Stray => self.close(transcript, writer),
            Heard::More => Ok(()),
        }
    }

    /// A frame begins at an offset with this header.
    fn begin<T: Transcript, P: Pen>(
        &mut self,
        has_room: bool,
        at: u64,
        header: &Header,
        transcript: &mut T,
        writer: &mut TextWriter<P>,
    ) -> Result<(), T::Fault> {
        if !is_plain(header) {
            self.reader = None;
            transcript.compressed(at, header, writer)
        } else if has_room {
            self.begin_plain(at, header, transcript, writer)
        } else {
            self.reader = None;
            transcript.unread(at, header, writer)
        }
    }

    /// A frame begins at an offset with this header, and its bytes are read.
    fn begin_plain<T: Transcript, P: Pen>(
        &mut self,
        at: u64,
        header: &Header,
        transcript: &mut T,
        writer: &mut TextWriter<P>,
    ) -> Result<(), T::Fault> {
        let types = transcript.begin(at, header, writer)?;
        match self.begin_reader(at, types) {
            Ok(()) => self.take_body(&header.write(), transcript, writer),
            Err(AllocError) => Err(T::no_memory()),
        }
    }

    /// A frame begins at an offset, whose bytes are read, with these types.
    fn begin_reader(&mut self, at: u64, types: Option<TypeTable>) -> Result<(), AllocError> {
        let reader = self.new_reader(at, types)?;
        self.reader = Some(reader);
        Ok(())
    }

    /// The decoder of a frame that begins at an offset, with these types.
    fn new_reader(
        &self,
        at: u64,
        types: Option<TypeTable>,
    ) -> Result<Box<FrameReader>, AllocError> {
        let reader = FrameReader::new(self.limits, at, types)?;
        Ok(Box::kit_new(reader)?)
    }

    /// Takes bytes which come next of the frame that is read, if one is.
    fn take_body<T: Transcript, P: Pen>(
        &mut self,
        bytes: &[u8],
        transcript: &mut T,
        writer: &mut TextWriter<P>,
    ) -> Result<(), T::Fault> {
        let Some(mut reader) = self.reader.take() else {
            return Ok(());
        };
        let taken = reader.take(bytes, transcript, writer);
        if reader.is_open() {
            self.reader = Some(reader);
        }
        taken
    }
}

/// Whether nothing more is reported of a piece.
fn is_done(heard: Heard) -> bool {
    match heard {
        Heard::More => true,
        Heard::Begins(_) | Heard::Body | Heard::Ends(_) | Heard::Stray => false,
    }
}

/// Whether a frame is not compressed, goes in its opcode's direction, and is not too long.
fn is_plain(header: &Header) -> bool {
    header.flags & 0x01 == 0
        && header.opcode.is_response() == header.response
        && header.length <= Header::LONGEST_BODY
}
