// Written by dist/erase from crates/cqlp_session/src/client_of.rt.
//! The client's core with a value for each open request.

use crate::kit_std::prelude::{Vec};
use crate::cqlp_session::carried::Refused;
use crate::cqlp_session::client::Client;
use crate::cqlp_session::into_values::IntoValues;
use crate::cqlp_session::kind::RequestKind;
use crate::cqlp_session::phase::Phase;
use crate::cqlp_session::refusal::SlotsOrMemory;
use crate::cqlp_session::ticket::{BeginError, Reply, Stray, Ticket};
use crate::cqlp_session::{carried, slots};
use crate::cqlp_note::Header;

/// What a response's header says to a client, with the value of the request that it answers.
#[derive(Clone, Copy, Debug, PartialEq, Eq)]
pub enum ReplyOf<T> {
    /// An event that the server pushed. Section 4.2.6 of `native_protocol_v4.spec`.
    ServerEvent,
    /// The reply to this request, with the value that it began with.
    Answer {
        /// The ticket that `begin` gave for the request.
        ticket: Ticket,
        /// What the request asked for, which says how the reply is to be read.
        kind: RequestKind,
        /// The value that the caller gave to `begin`.
        carried: T,
    },
    /// The reply to this request, which was cancelled, with the value that it began with.
    Dropped {
        /// The ticket that `begin` gave for the request.
        ticket: Ticket,
        /// The value that the caller gave to `begin`, kept until now since the reply was still to come.
        carried: T,
    },
}

/// A [`Client`] that carries a value of the caller's with each open request, from its `begin` to its reply.
pub struct ClientOf<T> {
    core: Client,
    /// The value of the request that is open under each stream id.
    carried: Vec<Option<T>>,
}

impl<T> ClientOf<T> {
    /// The core of a connection on which nothing was sent yet. `slots` is how many requests may be open at a time, 1 to
    /// 32,768, as in [`Client::new`]. All memory is taken here: that of a `Client`, and a place for each value.
    ///
    /// # Errors
    ///
    /// A number of slots that is 0 or over 32,768, and memory that is refused.
    pub fn new(slots: u16) -> Result<ClientOf<T>, SlotsOrMemory> {
        if !(1..=slots::MOST).contains(&slots) {
            return Err(SlotsOrMemory::BadSlots);
        }
        Ok(ClientOf {
            core: Client::new(slots)?,
            carried: carried::empty(slots as usize)?,
        })
    }

    /// How far the setting up of the connection has come.
    #[must_use]
    pub fn phase(&self) -> Phase {
        self.core.phase()
    }

    /// Whether a request is open under this stream id, as in [`Client::is_open`].
    #[must_use]
    pub fn is_open(&self, stream: i16) -> bool {
        self.core.is_open(stream)
    }

    /// The value that the request carries which is open under this stream id. None where none is.
    #[must_use]
    pub fn get(&self, stream: i16) -> Option<&T> {
        carried::get(&self.carried, stream)
    }

    /// The same, to write: what is left there is what the request carries from then on. Nothing else changes.
    pub fn get_mut(&mut self, stream: i16) -> Option<&mut T> {
        if self.get(stream).is_some() {
            Some(self.value_mut(stream))
        } else {
            None
        }
    }

    /// The value of the request that is open under this stream id, to write.
    fn value_mut(&mut self, stream: i16) -> &mut T {
        carried::value_in(&mut self.carried[stream as usize])
    }

    /// The values of all requests that are still open, in the order of their stream ids: what is left to report when
    /// the connection ends. Takes no memory.
    #[must_use]
    pub fn into_values(self) -> IntoValues<T> {
        let ClientOf { core: _, carried } = self;
        IntoValues::new(carried)
    }

    /// Begins a request, as [`Client::begin`] does, and keeps a value until its reply. Where it is refused, the value
    /// comes back and nothing is changed.
    ///
    /// # Errors
    ///
    /// As [`Client::begin`], with the value.
    pub fn begin(&mut self, kind: RequestKind, carried: T) -> Result<Ticket, Refused<BeginError, T>> {
        match self.core.begin(kind) {
            Ok(ticket) => {
                carried::keep(&mut self.carried, ticket.id, carried);
                Ok(ticket)
            }
            Err(why) => Err(Refused { why, carried }),
        }
    }

    /// Takes the header of a message that came, as [`Client::reply`] does. A reply hands out the value that its request
    /// began with, given up or not.
    ///
    /// # Errors
    ///
    /// As [`Client::reply`].
    pub fn reply(&mut self, header: &Header) -> Result<ReplyOf<T>, Stray> {
        let reply = self.core.reply(header)?;
        let value = carried::take(&mut self.carried, header.stream);
        match (reply, value) {
            (Reply::Answer { ticket, kind }, Some(carried)) => Ok(ReplyOf::Answer {
                ticket,
                kind,
                carried,
            }),
            (Reply::Dropped { ticket }, Some(carried)) => Ok(ReplyOf::Dropped { ticket, carried }),
            (Reply::ServerEvent, None) => Ok(ReplyOf::ServerEvent),
            _ => unreachable!(),
        }
    }

    /// Gives up a request, as [`Client::cancel`] does. Its value stays until its reply comes, which hands it out.
    pub fn cancel(&mut self, ticket: Ticket) -> bool {
        self.core.cancel(ticket)
    }
}
