// Written by dist/erase from crates/cqlp_loop/src/server.rt.
//! The server.

use crate::cqlp_loop::fault::LoopFault;
use crate::cqlp_loop::inbox::Inbox;
use crate::cqlp_loop::request::Request;
use crate::cqlp_note::{Header, Source, Target};
use crate::cqlp_session::{Server, SlotsOrMemory};

/// How many requests may be open at a time.
const SLOTS: u16 = 2;

/// The server: which requests are open, and what it hears.
pub struct Host {
    core: Server,
    inbox: Inbox,
}

impl Host {
    /// With nothing sent and nothing heard.
    ///
    /// # Errors
    ///
    /// [`LoopFault::NoMemory`] alone.
    pub fn new() -> Result<Host, LoopFault> {
        let core = match Server::new(SLOTS) {
            Ok(core) => core,
            Err(SlotsOrMemory::NoMemory) => return Err(LoopFault::NoMemory),
            Err(SlotsOrMemory::BadSlots) => unreachable!(),
        };
        let inbox = Inbox::new()?;
        Ok(Host { core, inbox })
    }

    /// Waits for a request, and answers its header.
    ///
    /// # Errors
    ///
    /// [`LoopFault::BadReply`] where the decoder or the core refuses, [`LoopFault::SocketFault`] where a read fails or
    /// gives nothing, and [`LoopFault::TooManyTurns`].
    pub fn accept<R: Source>(&mut self, source: &mut R) -> Result<Header, LoopFault> {
        let header = self.inbox.header(source)?;
        match self.core.accept(&header) {
            Ok(_) => {}
            Err(_) => return Err(LoopFault::BadReply),
        }
        self.inbox.rest(source)?;
        Ok(header)
    }

    /// Writes the reply to a request that is open on this stream.
    ///
    /// # Errors
    ///
    /// [`LoopFault::BadReply`] where the core has no such request on this stream, [`LoopFault::NoMemory`], and
    /// [`LoopFault::SocketFault`] where the target fails.
    pub fn answer<W: Target>(
        &mut self,
        request: Request,
        stream: i16,
        target: &mut W,
    ) -> Result<(), LoopFault> {
        match self.core.answer(stream, request.reply()) {
            Ok(_) => request.write_reply(stream, target),
            Err(_) => Err(LoopFault::BadReply),
        }
    }
}
