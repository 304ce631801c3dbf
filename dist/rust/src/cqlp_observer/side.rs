// Written by dist/erase from crates/cqlp_observer/src/side.rt.
//! One side of a connection.

use crate::kit_std::prelude::{Box, KitBox};
use crate::cqlp_observer::heads::{Heads, Heard};
use crate::cqlp_observer::kept::{Announced, Front, Kept, announces_warnings};
use crate::cqlp_observer::message::{SeenFrame, SeenMessage};
use crate::cqlp_observer::opening::Opening;
use crate::cqlp_note::Header;
use crate::cqlp_observer_facts::FactsReader;
use crate::kit_std::alloc::{AllocError};
use core::mem;

/// What one side sent. It takes memory while a message's body passes of which not all bytes came in one piece.
pub(crate) struct Side {
    heads: Heads,
    /// What is kept of the message that passes; none between two messages, and where there was no room.
    present: Option<Box<Present>>,
}

/// A message whose body passes, as far as none of its bytes is missing.
pub(crate) struct Present {
    /// Its first bytes.
    front: Front,
    /// Those before them, where warnings are among these.
    announced: Announced,
    /// What it says.
    reader: FactsReader,
    /// Whether none of its bytes is missing so far.
    is_sound: bool,
}

/// What the first so many bytes of a piece say, beside the message that ends with them.
#[derive(Clone, Copy)]
pub(crate) struct SideStep {
    pub(crate) used: usize,
    /// Whether nothing more is said by the piece.
    pub(crate) is_done: bool,
    /// Whether a message begins of which there is no room to keep more than the header.
    pub(crate) is_bare: bool,
}

impl Present {
    /// A message with this header, of whose body nothing came.
    #[inline(always)]
    fn new(header: &Header) -> Result<Self, AllocError> {
        let announced = Self::none_announced(header)?;
        Ok(Present {
            front: Front::new(),
            announced,
            reader: FactsReader::new(header),
            is_sound: true,
        })
    }

    /// Of what lies before a message with this header nothing came. Takes memory where warnings are among that.
    #[inline(always)]
    fn none_announced(header: &Header) -> Result<Announced, AllocError> {
        if announces_warnings(header) {
            let none = Front::new();
            Ok(Some(Box::kit_new(none)?))
        } else {
            Ok(None)
        }
    }

    /// Its next bytes.
    #[inline(always)]
    fn keep(&mut self, bytes: &[u8]) -> Result<(), AllocError> {
        if !self.is_sound {
            return Ok(());
        }
        let before = self.reader.read(bytes);
        self.announce(&bytes[..before])?;
        self.front.add(&bytes[before..])
    }

    /// Its next bytes that lie before the message proper.
    #[inline(always)]
    fn announce(&mut self, bytes: &[u8]) -> Result<(), AllocError> {
        announce(&mut self.announced, bytes)
    }

    /// Some of its bytes are missing.
    #[cfg_attr(not(feature = "cli"), inline)]
    fn break_off(&mut self) {
        self.is_sound = false;
    }

    /// What is kept of it.
    #[inline(always)]
    fn into_kept(self) -> Result<Kept, AllocError> {
        let Present {
            front,
            announced,
            reader,
            is_sound: _,
        } = self;
        Kept::new(front, announced, reader.facts())
    }
}

/// The next bytes that lie before a message proper, where these are kept.
#[inline(always)]
fn announce(announced: &mut Announced, bytes: &[u8]) -> Result<(), AllocError> {
    match announced {
        Some(announced) => announced.add(bytes),
        None => Ok(()),
    }
}

impl Side {
    /// A side that sent nothing yet: that of the responses, or that of the requests. Its first byte begins a frame, where `from_start`.
    #[cfg_attr(not(feature = "cli"), inline)]
    pub(crate) fn new(responses: bool, from_start: bool) -> Self {
        Side {
            heads: Heads::new(responses, from_start),
            present: None,
        }
    }

    /// The side begins anew.
    #[cfg_attr(not(feature = "cli"), inline)]
    pub(crate) fn restart(&mut self, responses: bool, from_start: bool) {
        self.heads = Heads::new(responses, from_start);
        self.present = None;
    }

    /// Whether it has memory for the message that passes.
    #[inline(always)]
    pub(crate) fn is_keeping(&self) -> bool {
        self.present.is_some()
    }

    /// Whether a frame ends of which nothing more comes.
    #[inline(always)]
    pub(crate) fn is_over(&self) -> bool {
        self.heads.is_over()
    }

    /// What these bytes are that come next, if none came before.
    #[inline(always)]
    pub(crate) fn opening(&self, piece: &[u8]) -> Opening {
        self.heads.opening(piece)
    }

    /// What the next bytes say that came at this time. Of a frame that begins and does not end in the piece more than the header is kept, where
    /// `has_room`. The message that ends with them, if one does, is written where none is yet: it is large, and seldom ends in a piece.
    #[cfg_attr(not(feature = "cli"), inline)]
    pub(crate) fn read(
        &mut self,
        piece: &[u8],
        time: Option<u64>,
        begins: bool,
        has_room: bool,
        message: &mut Option<SeenMessage<Kept>>,
    ) -> Result<SideStep, AllocError> {
        if let Some(used) = self.heads.pass_body(piece, time) {
            self.keep(&piece[..used])?;
            return Ok(SideStep::to(used));
        }
        if self.heads.pass_stray(piece, begins) {
            return Ok(SideStep::to(piece.len()));
        }
        self.read_head(piece, time, begins, has_room, message)
    }

    /// What the next bytes say, as `read` says it. It is for those that are neither of a body nor all stray: what these are is large, and would be in
    /// memory also where it is not needed.
    #[inline(never)]
    fn read_head(
        &mut self,
        piece: &[u8],
        time: Option<u64>,
        begins: bool,
        has_room: bool,
        message: &mut Option<SeenMessage<Kept>>,
    ) -> Result<SideStep, AllocError> {
        let step = self.heads.take(piece, time, begins);
        let used = step.used;
        match step.heard {
            Heard::Begins(header) => self.begin(&header, used, time, piece, has_room, message),
            Heard::Body => {
                self.keep(&piece[..used])?;
                Ok(SideStep::to(used))
            }
            Heard::Ends(frame) => {
                *message = Some(self.finish(frame)?);
                Ok(SideStep::to(used))
            }
            Heard::Stray => Ok(SideStep::to(used)),
            Heard::More => Ok(SideStep::done(used)),
        }
    }

    /// The header of the frame that lies whole in these bytes from the first on, if it is between two frames and one does.
    #[inline(always)]
    pub(crate) fn whole_head(&self, piece: &[u8]) -> Option<Header> {
        self.heads.whole_head(piece)
    }

    /// The message of the frame with this header that lies whole in the next bytes, which came at this time.
    #[inline(always)]
    pub(crate) fn take_frame(
        &mut self,
        header: Header,
        piece: &[u8],
        time: Option<u64>,
    ) -> Result<SeenMessage<Kept>, AllocError> {
        self.present = None;
        let end = 9 + header.length as usize;
        let kept = self.kept_of_whole(header, &piece[9..end])?;
        let frame = self.heads.pass_frame(header, time);
        Ok(SeenMessage { frame, kept })
    }

    /// So many bytes did not come, which passed at this time, where that is known. The message that ends there, if one does, is written where none is
    /// yet.
    #[cfg_attr(not(feature = "cli"), inline)]
    pub(crate) fn gap(
        &mut self,
        length: u64,
        time: Option<u64>,
        message: &mut Option<SeenMessage<Kept>>,
    ) -> Result<(), AllocError> {
        self.break_off();
        if let Some(frame) = self.heads.gap(length, time) {
            *message = Some(self.finish(frame)?);
        }
        Ok(())
    }

    /// No more bytes come: the frame of which some did.
    #[cfg_attr(not(feature = "cli"), inline)]
    pub(crate) fn end(&mut self) -> Result<Option<SeenMessage<Kept>>, AllocError> {
        match self.heads.end() {
            Some(frame) => Ok(Some(self.finish(frame)?)),
            None => Ok(None),
        }
    }

    /// A frame begins, whose header ended after so many bytes of the piece.
    #[inline(always)]
    fn begin(
        &mut self,
        header: &Header,
        used: usize,
        time: Option<u64>,
        piece: &[u8],
        has_room: bool,
        message: &mut Option<SeenMessage<Kept>>,
    ) -> Result<SideStep, AllocError> {
        let length = header.length as usize;
        if length <= piece.len() - used {
            let end = used + length;
            return self.take_whole(header, end, time, &piece[used..end], message);
        }
        if !has_room {
            self.present = None;
            return Ok(SideStep::bare(used));
        }
        let present = Present::new(header)?;
        self.present = Some(Box::kit_new(present)?);
        Ok(SideStep::to(used))
    }

    /// All of a body that has begun is there, which ends after so many bytes of the piece: its frame ends.
    #[inline(always)]
    fn take_whole(
        &mut self,
        header: &Header,
        end: usize,
        time: Option<u64>,
        body: &[u8],
        message: &mut Option<SeenMessage<Kept>>,
    ) -> Result<SideStep, AllocError> {
        self.present = None;
        let kept = self.kept_of_whole(*header, body)?;
        if let Some(frame) = self.heads.pass_whole(time) {
            *message = Some(SeenMessage { frame, kept });
        }
        Ok(SideStep::to(end))
    }

    /// What is kept of a message with this header and body.
    #[inline(never)]
    fn kept_of_whole(&self, header: Header, body: &[u8]) -> Result<Kept, AllocError> {
        let mut reader = FactsReader::new(&header);
        let before = reader.read(body);
        let mut announced = Present::none_announced(&header)?;
        announce(&mut announced, &body[..before])?;
        let mut front = Front::new();
        front.add(&body[before..])?;
        Kept::new(front, announced, reader.facts())
    }

    /// Keeps bytes of a body.
    #[inline(always)]
    fn keep(&mut self, bytes: &[u8]) -> Result<(), AllocError> {
        match &mut self.present {
            Some(present) => present.keep(bytes),
            None => Ok(()),
        }
    }

    /// Some bytes are missing of the message that passes, if one does.
    #[cfg_attr(not(feature = "cli"), inline)]
    fn break_off(&mut self) {
        if let Some(present) = &mut self.present {
            present.break_off();
        }
    }

    /// A frame ends, with what was kept of it.
    #[cfg_attr(not(feature = "cli"), inline)]
    fn finish(&mut self, frame: SeenFrame) -> Result<SeenMessage<Kept>, AllocError> {
        let kept = match mem::replace(&mut self.present, None) {
            Some(present) => Box::kit_into_inner(present).into_kept()?,
            None => Kept::bare(),
        };
        Ok(SeenMessage { frame, kept })
    }
}

impl SideStep {
    /// So many bytes, which may not be all.
    #[inline(always)]
    fn to(used: usize) -> Self {
        SideStep {
            used,
            is_done: false,
            is_bare: false,
        }
    }

    /// Nothing more is said by the piece.
    #[inline(always)]
    fn done(used: usize) -> Self {
        SideStep {
            used,
            is_done: true,
            is_bare: false,
        }
    }

    /// A message begins after so many bytes of which there is no room to keep more than the header.
    #[inline(always)]
    fn bare(used: usize) -> Self {
        SideStep {
            used,
            is_done: false,
            is_bare: true,
        }
    }
}
