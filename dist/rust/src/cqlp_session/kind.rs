// Written by dist/erase from crates/cqlp_session/src/kind.rt.
//! The kinds of requests.

use crate::cqlp_note::Opcode;

/// What a client asks for. Section 4.1 of `native_protocol_v4.spec`.
#[derive(Clone, Copy, Debug, PartialEq, Eq)]
pub enum RequestKind {
    /// STARTUP, which READY or AUTHENTICATE answers. Section 4.1.1.
    Startup,
    /// OPTIONS, which SUPPORTED answers; it may come before STARTUP. Section 4.1.3.
    Options,
    /// QUERY, which RESULT answers. Section 4.1.4.
    Query,
    /// PREPARE, which RESULT answers with the id of the statement. Section 4.1.5.
    Prepare,
    /// EXECUTE of a prepared statement, which RESULT answers. Section 4.1.6.
    Execute,
    /// BATCH of statements, which RESULT answers. Section 4.1.7.
    Batch,
    /// REGISTER for events, which READY answers. Section 4.1.8.
    Register,
    /// AUTH_RESPONSE, which AUTH_CHALLENGE or AUTH_SUCCESS answers. Section 4.1.2.
    AuthResponse,
}

impl RequestKind {
    /// The kind of request that has this opcode, if it is a request's.
    pub(crate) fn from_opcode(opcode: Opcode) -> Option<RequestKind> {
        match opcode {
            Opcode::Startup => Some(RequestKind::Startup),
            Opcode::Options => Some(RequestKind::Options),
            Opcode::Query => Some(RequestKind::Query),
            Opcode::Prepare => Some(RequestKind::Prepare),
            Opcode::Execute => Some(RequestKind::Execute),
            Opcode::Batch => Some(RequestKind::Batch),
            Opcode::Register => Some(RequestKind::Register),
            Opcode::AuthResponse => Some(RequestKind::AuthResponse),
            Opcode::Error
            | Opcode::Ready
            | Opcode::Authenticate
            | Opcode::Supported
            | Opcode::Result
            | Opcode::Event
            | Opcode::AuthChallenge
            | Opcode::AuthSuccess => None,
        }
    }

    /// The opcode of a request of this kind.
    #[must_use]
    pub fn opcode(self) -> Opcode {
        match self {
            RequestKind::Startup => Opcode::Startup,
            RequestKind::Options => Opcode::Options,
            RequestKind::Query => Opcode::Query,
            RequestKind::Prepare => Opcode::Prepare,
            RequestKind::Execute => Opcode::Execute,
            RequestKind::Batch => Opcode::Batch,
            RequestKind::Register => Opcode::Register,
            RequestKind::AuthResponse => Opcode::AuthResponse,
        }
    }

    /// Whether a message with this opcode answers a request of this kind. Section 4.2.
    pub(crate) fn is_answered_by(self, opcode: Opcode) -> bool {
        match (self, opcode) {
            (_, Opcode::Error)
            | (RequestKind::Startup, Opcode::Ready | Opcode::Authenticate)
            | (RequestKind::AuthResponse, Opcode::AuthChallenge | Opcode::AuthSuccess)
            | (RequestKind::Options, Opcode::Supported)
            | (RequestKind::Register, Opcode::Ready) => true,
            (
                RequestKind::Query
                | RequestKind::Prepare
                | RequestKind::Execute
                | RequestKind::Batch,
                Opcode::Result,
            ) => true,
            _ => false,
        }
    }

    /// Whether it takes part in setting up the connection.
    pub(crate) fn is_handshake(self) -> bool {
        matches!(self, RequestKind::Startup | RequestKind::AuthResponse)
    }
}
