// Written by dist/erase from crates/cqlp_session/src/server.rt.
//! The server's core.

use crate::kit_std::prelude::{Vec};
use crate::cqlp_session::kind::RequestKind;
use crate::cqlp_session::phase::Phase;
use crate::cqlp_session::refusal::SlotsOrMemory;
use crate::cqlp_session::slots;
use crate::cqlp_note::{Header, Opcode};

error! {
/// Why a message is not accepted as a request.
#[derive(Clone, Copy, Debug, PartialEq, Eq)]
pub enum ServerRefusal {
    /// The header is one of a response, or its opcode is.
    #[error("a response, or an opcode that is no request's")]
    NotRequest,
    /// The stream id is negative, or not below the number of slots.
    #[error("the stream id is negative or past the last")]
    BadId,
    /// An earlier request under this stream id is not answered yet.
    #[error("a request is open under this stream id")]
    IdTaken,
    /// The connection is in this phase, in which no request of the kind may begin.
    #[error("requests of this kind may not begin in the phase {0:?}")]
    Phase(Phase),
}
}

error! {
/// Why a request may not be answered so.
#[derive(Clone, Copy, Debug, PartialEq, Eq)]
pub enum AnswerError {
    /// No request was accepted under this stream id, or it is answered already.
    #[error("no request is open under this stream id")]
    NotTaken,
    /// A response of this opcode answers requests of other kinds than the one that is open.
    #[error("this opcode does not answer the request under this stream id")]
    WrongOpcode,
}
}

/// Which requests are open on one connection, seen from its server.
pub struct Server {
    phase: Phase,
    /// The kind of request that is open under each stream id.
    slots: Vec<Option<RequestKind>>,
}

impl Server {
    /// The core of a connection on which nothing came yet. `slots` is how many requests may be open at a time, 1 to
    /// 32,768; their stream ids are those below it (section 2.3 of `native_protocol_v4.spec`). All memory is taken here.
    ///
    /// # Errors
    ///
    /// A number of slots that is 0 or over 32,768, and memory that is refused.
    #[cfg_attr(not(feature = "cli"), inline)]
    pub fn new(slots: u16) -> Result<Server, SlotsOrMemory> {
        if !(1..=slots::MOST).contains(&slots) {
            return Err(SlotsOrMemory::BadSlots);
        }
        Ok(Server {
            phase: Phase::Fresh,
            slots: slots::empty(slots as usize)?,
        })
    }

    /// How far the setting up of the connection has come.
    #[cfg_attr(not(feature = "cli"), inline)]
    #[must_use]
    pub fn phase(&self) -> Phase {
        self.phase
    }

    /// Whether a request is open under this stream id: one was accepted under it, and is not answered yet.
    #[cfg_attr(not(feature = "cli"), inline)]
    #[must_use]
    pub fn is_open(&self, stream: i16) -> bool {
        slots::under(&self.slots, stream).is_some()
    }

    /// Takes the header of a request that came. Its id is taken until it is answered. Section 4.1 of
    /// `native_protocol_v4.spec`.
    ///
    /// The first of these refuses it, and changes nothing: `NotRequest`, for a response, and for an opcode that is no
    /// request's; `BadId`, for an id that is negative or not below the number of slots; `IdTaken`, where a request is
    /// open under it; `Phase`, where requests of this kind may not begin in the present phase.
    ///
    /// # Errors
    ///
    /// `NotRequest`, `BadId`, `IdTaken` or `Phase`, as said above.
    #[cfg_attr(not(feature = "cli"), inline)]
    pub fn accept(&mut self, header: &Header) -> Result<RequestKind, ServerRefusal> {
        let Header {
            response,
            flags: _,
            stream: id,
            opcode,
            length: _,
        } = *header;
        if response {
            return Err(ServerRefusal::NotRequest);
        }
        let Some(kind) = RequestKind::from_opcode(opcode) else {
            return Err(ServerRefusal::NotRequest);
        };
        if !slots::has(&self.slots, id) {
            return Err(ServerRefusal::BadId);
        }
        if slots::under(&self.slots, id).is_some() {
            return Err(ServerRefusal::IdTaken);
        }
        if !self.phase.may_begin(kind) {
            return Err(ServerRefusal::Phase(self.phase));
        }
        self.phase = self.phase.begun(kind);
        slots::put(&mut self.slots, id, Some(kind));
        Ok(kind)
    }

    /// Answers the request that is open under this id by a message with this opcode, and frees the id. Section 4.2 of
    /// `native_protocol_v4.spec`.
    ///
    /// The first of these refuses it, and changes nothing: `NotTaken`, where no request is open under the id;
    /// `WrongOpcode`, where the opcode does not answer requests of that kind.
    ///
    /// # Errors
    ///
    /// `NotTaken` or `WrongOpcode`, as said above.
    #[cfg_attr(not(feature = "cli"), inline)]
    pub fn answer(&mut self, id: i16, opcode: Opcode) -> Result<RequestKind, AnswerError> {
        let Some(kind) = slots::under(&self.slots, id) else {
            return Err(AnswerError::NotTaken);
        };
        if !kind.is_answered_by(opcode) {
            return Err(AnswerError::WrongOpcode);
        }
        self.phase = self.phase.answered(kind, opcode);
        slots::put(&mut self.slots, id, None);
        Ok(kind)
    }
}
