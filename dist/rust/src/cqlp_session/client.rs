// Written by dist/erase from crates/cqlp_session/src/client.rt.
//! The client's core.

use crate::cqlp_session::kind::RequestKind;
use crate::cqlp_session::phase::Phase;
use crate::cqlp_session::refusal::SlotsOrMemory;
use crate::cqlp_session::slots;
use crate::cqlp_session::streams::{OpenRequest, Streams};
use crate::cqlp_session::ticket::{BeginError, Reply, Stray, Ticket};
use crate::cqlp_note::{Header, Opcode};

/// Which requests are open on one connection, seen from its client. An id is given out again only once the reply to
/// the request before was handed in.
pub struct Client {
    phase: Phase,
    /// How many requests have begun.
    begun: u64,
    streams: Streams,
}

impl Client {
    /// The core of a connection on which nothing was sent yet. `slots` is how many requests may be open at a time, 1 to
    /// 32,768; their stream ids are those below it (section 2.3 of `native_protocol_v4.spec`). All memory is taken here.
    ///
    /// # Errors
    ///
    /// A number of slots that is 0 or over 32,768, and memory that is refused.
    #[cfg_attr(not(feature = "cli"), inline)]
    pub fn new(slots: u16) -> Result<Client, SlotsOrMemory> {
        if !(1..=slots::MOST).contains(&slots) {
            return Err(SlotsOrMemory::BadSlots);
        }
        Ok(Client {
            phase: Phase::Fresh,
            begun: 0,
            streams: Streams::new(slots)?,
        })
    }

    /// How far the setting up of the connection has come.
    #[cfg_attr(not(feature = "cli"), inline)]
    #[must_use]
    pub fn phase(&self) -> Phase {
        self.phase
    }

    /// Whether a request is open under this stream id: one began under it, and its reply has not come. A request that was
    /// cancelled is open until then. No request is open under a negative id.
    #[cfg_attr(not(feature = "cli"), inline)]
    #[must_use]
    pub fn is_open(&self, stream: i16) -> bool {
        self.streams.under(stream).is_some()
    }

    /// Begins a request. Its header is to have the ticket's id, the least that is free.
    ///
    /// The first of these refuses it, and changes nothing: `Phase`, where requests of this kind may not begin in the
    /// phase that is; `Spent`, where 2^64 - 1 requests have begun; `Full`, where each id is taken.
    ///
    /// # Errors
    ///
    /// `Phase`, `Spent` or `Full`, as said above.
    #[cfg_attr(not(feature = "cli"), inline)]
    pub fn begin(&mut self, kind: RequestKind) -> Result<Ticket, BeginError>

        // What the answer says of the ids and the numbers.
    {
        if !self.phase.may_begin(kind) {
            return Err(BeginError::Phase(self.phase));
        }
        if self.begun == u64::MAX {
            return Err(BeginError::Spent);
        }
        let Some(id) = self.streams.least_free() else {
            return Err(BeginError::Full);
        };
        let number = self.begun + 1;
        self.phase = self.phase.begun(kind);
        self.begun = number;
        let open = OpenRequest {
            number,
            kind,
            cancelled: false,
        };
        self.streams.put(id, Some(open));
        Ok(Ticket { id, number })
    }

    /// Takes the header of a message that came. A reply frees its request's id. Section 4.2 of
    /// `native_protocol_v4.spec`.
    ///
    /// An EVENT response with a negative id is no reply. Of any other message, the first of these refuses it, and
    /// changes nothing: `NotResponse`, for a request; `NoSuchStream`, where no request is open under its id;
    /// `WrongOpcode`, where it does not answer requests of that kind.
    ///
    /// # Errors
    ///
    /// `NotResponse`, `NoSuchStream` or `WrongOpcode`, as said above.
    #[cfg_attr(not(feature = "cli"), inline)]
    pub fn reply(&mut self, header: &Header) -> Result<Reply, Stray> {
        let Header {
            response,
            flags: _,
            stream: id,
            opcode,
            length: _,
        } = *header;
        if response && opcode == Opcode::Event && id < 0 {
            return Ok(Reply::ServerEvent);
        }
        if !response {
            return Err(Stray::NotResponse);
        }
        let Some(open) = self.streams.under(id) else {
            return Err(Stray::NoSuchStream);
        };
        if !open.kind.is_answered_by(opcode) {
            return Err(Stray::WrongOpcode);
        }
        self.phase = self.phase.answered(open.kind, opcode);
        self.streams.put(id, None);
        let ticket = Ticket {
            id,
            number: open.number,
        };
        Ok(if open.cancelled {
            Reply::Dropped { ticket }
        } else {
            Reply::Answer {
                ticket,
                kind: open.kind,
            }
        })
    }

    /// Gives up a request that waits for its reply, and was not given up before, unless it is a STARTUP or an
    /// AUTH_RESPONSE; else changes nothing. Its id stays taken until its reply comes.
    #[cfg_attr(not(feature = "cli"), inline)]
    pub fn cancel(&mut self, ticket: Ticket) -> bool {
        let Some(open) = self.streams.under(ticket.id) else {
            return false;
        };
        if open.number != ticket.number || open.cancelled || open.kind.is_handshake() {
            return false;
        }
        let open = OpenRequest {
            cancelled: true,
            ..open
        };
        self.streams.put(ticket.id, Some(open));
        true
    }
}
