// Written by dist/erase from crates/cqlp_session/src/headers.rt.
//! Calls that give the header to be written.

use crate::cqlp_session::body::Body;
use crate::cqlp_session::carried::Refused;
use crate::cqlp_session::client::Client;
use crate::cqlp_session::client_of::ClientOf;
use crate::cqlp_session::kind::RequestKind;
use crate::cqlp_session::server::{AnswerError, Server};
use crate::cqlp_session::server_of::ServerOf;
use crate::cqlp_session::ticket::{BeginError, Ticket};
use crate::cqlp_note::{Header, Opcode};

impl Client {
    /// Begins a request, as [`Client::begin`] does, and gives its header: a request with the ticket's stream id and the
    /// opcode of its kind. It is lawful, and what a server's core takes for this request.
    ///
    /// # Errors
    ///
    /// As [`Client::begin`].
    #[cfg_attr(not(feature = "cli"), inline)]
    pub fn begin_with(
        &mut self,
        kind: RequestKind,
        body: Body,
    ) -> Result<(Ticket, Header), BeginError> {
        let ticket = self.begin(kind)?;
        Ok((ticket, request_header(kind, ticket, body)))
    }
}

impl Server {
    /// Answers the request that is open under this id, as [`Server::answer`] does, and gives the header of the response,
    /// with that id and that opcode. It is lawful, and what the client's core takes for the reply.
    ///
    /// # Errors
    ///
    /// As [`Server::answer`].
    #[cfg_attr(not(feature = "cli"), inline)]
    pub fn answer_with(
        &mut self,
        id: i16,
        opcode: Opcode,
        body: Body,
    ) -> Result<(Header, RequestKind), AnswerError> {
        let kind = self.answer(id, opcode)?;
        Ok((response_header(id, opcode, body), kind))
    }
}

impl<T> ClientOf<T> {
    /// Begins a request and keeps a value, as [`ClientOf::begin`] does, and gives its header, as [`Client::begin_with`] does.
    ///
    /// # Errors
    ///
    /// As [`ClientOf::begin`].
    pub fn begin_with(
        &mut self,
        kind: RequestKind,
        body: Body,
        carried: T,
    ) -> Result<(Ticket, Header), Refused<BeginError, T>> {
        match self.begin(kind, carried) {
            Ok(ticket) => Ok((ticket, request_header(kind, ticket, body))),
            Err(refused) => Err(refused),
        }
    }
}

impl<T> ServerOf<T> {
    /// Answers a request and hands out its value, as [`ServerOf::answer`] does, and gives the header of the response, as
    /// [`Server::answer_with`] does.
    ///
    /// # Errors
    ///
    /// As [`ServerOf::answer`].
    pub fn answer_with(
        &mut self,
        id: i16,
        opcode: Opcode,
        body: Body,
    ) -> Result<(Header, RequestKind, T), AnswerError> {
        let (kind, carried) = self.answer(id, opcode)?;
        Ok((response_header(id, opcode, body), kind, carried))
    }
}

/// The header of an EVENT that a server pushes, whose stream id is -1 (section 4.2.6 of `native_protocol_v4.spec`). It is
/// lawful, and what a client's core reports as [`Reply::ServerEvent`](crate::cqlp_session::Reply::ServerEvent).
#[must_use]
pub fn event_header(body: Body) -> Header {
    Header {
        response: true,
        flags: body.flags(),
        stream: -1,
        opcode: Opcode::Event,
        length: body.length(),
    }
}

/// The header of a request.
fn request_header(kind: RequestKind, ticket: Ticket, body: Body) -> Header {
    Header {
        response: false,
        flags: body.flags(),
        stream: ticket.id,
        opcode: kind.opcode(),
        length: body.length(),
    }
}

/// The header of a response.
fn response_header(id: i16, opcode: Opcode, body: Body) -> Header {
    Header {
        response: true,
        flags: body.flags(),
        stream: id,
        opcode,
        length: body.length(),
    }
}
