// Written by dist/erase from crates/cqlp_session/src/ticket.rt.
//! What a client core answers.

use crate::cqlp_session::kind::RequestKind;
use crate::cqlp_session::phase::Phase;

/// A request that has begun.
#[derive(Clone, Copy, Debug, PartialEq, Eq)]
pub struct Ticket {
    /// The stream id, which the request's header has and its reply's will have: 0 to 32,767. Section 2.3 of
    /// `native_protocol_v4.spec`.
    pub id: i16,
    /// The place of the request among all that the core began, from 1 on. No two of them have the same.
    pub number: u64,
}

/// What a response's header says to a client.
#[derive(Clone, Copy, Debug, PartialEq, Eq)]
pub enum Reply {
    /// An event that the server pushed. Section 4.2.6 of `native_protocol_v4.spec`.
    ServerEvent,
    /// The reply to this request.
    Answer {
        /// The ticket that `begin` gave for the request.
        ticket: Ticket,
        /// What the request asked for, which says how the reply is to be read.
        kind: RequestKind,
    },
    /// The reply to this request, which was cancelled.
    Dropped {
        /// The ticket that `begin` gave for the request. Its stream id is free again.
        ticket: Ticket,
    },
}

error! {
/// Why a request may not begin.
#[derive(Clone, Copy, Debug, PartialEq, Eq)]
pub enum BeginError {
    /// The connection is in this phase, in which no request of the kind may begin.
    #[error("requests of this kind may not begin in the phase {0:?}")]
    Phase(Phase),
    /// All numbers of tickets were given, and none is given twice.
    #[error("no number is left: 2^64 - 1 requests have begun")]
    Spent,
    /// As many requests are open as the client has slots. A reply to one of them makes its id free.
    #[error("each stream id is taken")]
    Full,
}
}

error! {
/// Why a message is no reply.
#[derive(Clone, Copy, Debug, PartialEq, Eq)]
pub enum Stray {
    /// The header is one of a request, as its first byte says.
    #[error("a request, where a response was due")]
    NotResponse,
    /// Its stream id is one of no open request, and it is no event.
    #[error("no request is open under this stream id")]
    NoSuchStream,
    /// A response of this opcode answers requests of other kinds than the one that is open.
    #[error("this opcode does not answer the request under this stream id")]
    WrongOpcode,
}
}
