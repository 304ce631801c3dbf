// Written by dist/erase from crates/cqlp_loop/src/client.rt.
//! The client.

use crate::cqlp_loop::fault::LoopFault;
use crate::cqlp_loop::inbox::Inbox;
use crate::cqlp_loop::lines::print_reply;
use crate::cqlp_loop::request::Request;
use crate::cqlp_note::{Opcode, Source, Target};
use crate::cqlp_session::{Client, Reply, SlotsOrMemory, Ticket};

/// How many requests may be open at a time.
const SLOTS: u16 = 2;

/// The client: which of its requests are open, and what it hears.
pub struct Caller {
    core: Client,
    inbox: Inbox,
}

impl Caller {
    /// With nothing sent and nothing heard.
    ///
    /// # Errors
    ///
    /// [`LoopFault::NoMemory`] alone.
    pub fn new() -> Result<Caller, LoopFault> {
        let core = match Client::new(SLOTS) {
            Ok(core) => core,
            Err(SlotsOrMemory::NoMemory) => return Err(LoopFault::NoMemory),
            Err(SlotsOrMemory::BadSlots) => unreachable!(),
        };
        let inbox = Inbox::new()?;
        Ok(Caller { core, inbox })
    }

    /// Begins a request and writes it on the stream that the core gives it.
    ///
    /// # Errors
    ///
    /// [`LoopFault::BadReply`] where the core does not begin it after the replies that came, [`LoopFault::NoMemory`], and
    /// [`LoopFault::SocketFault`] where the target fails.
    pub fn ask<W: Target>(
        &mut self,
        request: Request,
        target: &mut W,
    ) -> Result<(), LoopFault> {
        match self.core.begin(request.kind()) {
            Ok(ticket) => request.write(ticket.id, target),
            Err(_) => Err(LoopFault::BadReply),
        }
    }

    /// Waits for a reply and prints its line.
    ///
    /// # Errors
    ///
    /// Those of [`Caller::listen`], [`LoopFault::NoMemory`], and [`LoopFault::WriteFault`] where the output fails.
    pub fn hear<R: Source, O: Target>(
        &mut self,
        source: &mut R,
        out: &mut O,
    ) -> Result<(), LoopFault> {
        let (ticket, opcode) = self.listen(source)?;
        print_reply(ticket, opcode, out)
    }

    /// Waits for a reply: the ticket of its request, and its opcode.
    ///
    /// # Errors
    ///
    /// [`LoopFault::BadReply`] where the decoder refuses or the core knows no request to which it is the answer,
    /// [`LoopFault::SocketFault`] where a read fails or gives nothing, and [`LoopFault::TooManyTurns`].
    pub fn listen<R: Source>(&mut self, source: &mut R) -> Result<(Ticket, Opcode), LoopFault> {
        let header = self.inbox.header(source)?;
        let ticket = match self.core.reply(&header) {
            Ok(Reply::Answer { ticket, kind: _ }) => ticket,
            Ok(Reply::ServerEvent) => return Err(LoopFault::BadReply),
            Ok(Reply::Dropped { ticket: _ }) => return Err(LoopFault::BadReply),
            Err(_) => return Err(LoopFault::BadReply),
        };
        self.inbox.rest(source)?;
        Ok((ticket, header.opcode))
    }
}
