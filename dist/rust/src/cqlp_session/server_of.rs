// Written by dist/erase from crates/cqlp_session/src/server_of.rt.
//! The server's core with a value for each open request.

use crate::kit_std::prelude::{Vec};
use crate::cqlp_session::carried::Refused;
use crate::cqlp_session::into_values::IntoValues;
use crate::cqlp_session::kind::RequestKind;
use crate::cqlp_session::phase::Phase;
use crate::cqlp_session::refusal::SlotsOrMemory;
use crate::cqlp_session::server::{AnswerError, Server, ServerRefusal};
use crate::cqlp_session::{carried, slots};
use crate::cqlp_note::{Header, Opcode};

/// A [`Server`] that carries a value of the caller's with each open request, from its `accept` to its answer.
pub struct ServerOf<T> {
    core: Server,
    /// The value of the request that is open under each stream id.
    carried: Vec<Option<T>>,
}

impl<T> ServerOf<T> {
    /// The core of a connection on which nothing came yet. `slots` is how many requests may be open at a time, 1 to
    /// 32,768, as in [`Server::new`]. All memory is taken here: that of a `Server`, and a place for each value.
    ///
    /// # Errors
    ///
    /// A number of slots that is 0 or over 32,768, and memory that is refused.
    pub fn new(slots: u16) -> Result<ServerOf<T>, SlotsOrMemory> {
        if !(1..=slots::MOST).contains(&slots) {
            return Err(SlotsOrMemory::BadSlots);
        }
        Ok(ServerOf {
            core: Server::new(slots)?,
            carried: carried::empty(slots as usize)?,
        })
    }

    /// How far the setting up of the connection has come.
    #[must_use]
    pub fn phase(&self) -> Phase {
        self.core.phase()
    }

    /// Whether a request is open under this stream id, as in [`Server::is_open`].
    #[must_use]
    pub fn is_open(&self, stream: i16) -> bool {
        self.core.is_open(stream)
    }

    /// The value that the request carries which is open under this stream id. None where none is.
    #[must_use]
    pub fn get(&self, stream: i16) -> Option<&T> {
        carried::get(&self.carried, stream)
    }

    /// The same, to write: what is left there is what the request carries from then on. Nothing else changes.
    pub fn get_mut(&mut self, stream: i16) -> Option<&mut T> {
        if self.get(stream).is_some() {
            Some(self.value_mut(stream))
        } else {
            None
        }
    }

    /// The value of the request that is open under this stream id, to write.
    fn value_mut(&mut self, stream: i16) -> &mut T {
        carried::value_in(&mut self.carried[stream as usize])
    }

    /// The values of all requests that are still open, in the order of their stream ids: what is left to report when
    /// the connection ends. Takes no memory.
    #[must_use]
    pub fn into_values(self) -> IntoValues<T> {
        let ServerOf { core: _, carried } = self;
        IntoValues::new(carried)
    }

    /// Takes the header of a request that came, as [`Server::accept`] does, and keeps a value until it is answered.
    /// Where it is refused, the value comes back and nothing is changed.
    ///
    /// # Errors
    ///
    /// As [`Server::accept`], with the value.
    pub fn accept(
        &mut self,
        header: &Header,
        carried: T,
    ) -> Result<RequestKind, Refused<ServerRefusal, T>> {
        match self.core.accept(header) {
            Ok(kind) => {
                carried::keep(&mut self.carried, header.stream, carried);
                Ok(kind)
            }
            Err(why) => Err(Refused { why, carried }),
        }
    }

    /// Answers the request that is open under this id, as [`Server::answer`] does, and hands out the value that it was
    /// accepted with.
    ///
    /// # Errors
    ///
    /// As [`Server::answer`].
    pub fn answer(&mut self, id: i16, opcode: Opcode) -> Result<(RequestKind, T), AnswerError> {
        let kind = self.core.answer(id, opcode)?;
        match carried::take(&mut self.carried, id) {
            Some(carried) => Ok((kind, carried)),
            None => unreachable!(),
        }
    }
}
