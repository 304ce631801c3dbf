// Written by dist/erase from crates/cqlp_session/src/phase.rt.
//! The phases of a connection.

use crate::cqlp_session::kind::RequestKind;
use crate::cqlp_note::Opcode;

/// How far the setting up of a connection has come. Sections 4.1.1 and 4.1.2 of `native_protocol_v4.spec`.
#[derive(Clone, Copy, Debug, PartialEq, Eq)]
pub enum Phase {
    /// No STARTUP yet: OPTIONS and STARTUP may begin.
    Fresh,
    /// A STARTUP or AUTH_RESPONSE waits for its reply: nothing may begin.
    Opening,
    /// The server asked for AUTH_RESPONSE, which alone may begin.
    Challenged,
    /// Set up: all but STARTUP and AUTH_RESPONSE may begin.
    Ready,
    /// Setting up ended by an ERROR: nothing may begin.
    Failed,
}

impl Phase {
    /// Whether a request of this kind may begin.
    pub(crate) fn may_begin(self, kind: RequestKind) -> bool {
        match self {
            Phase::Fresh => matches!(kind, RequestKind::Startup | RequestKind::Options),
            Phase::Challenged => matches!(kind, RequestKind::AuthResponse),
            Phase::Ready => !kind.is_handshake(),
            Phase::Opening | Phase::Failed => false,
        }
    }

    /// The phase once a request of this kind has begun.
    pub(crate) fn begun(self, kind: RequestKind) -> Phase {
        if kind.is_handshake() {
            Phase::Opening
        } else {
            self
        }
    }

    /// The phase once a request of this kind is answered by a message with this opcode.
    pub(crate) fn answered(self, kind: RequestKind, opcode: Opcode) -> Phase {
        match (kind, opcode) {
            (RequestKind::Startup | RequestKind::AuthResponse, Opcode::Error) => Phase::Failed,
            (RequestKind::Startup, Opcode::Ready)
            | (RequestKind::AuthResponse, Opcode::AuthSuccess) => Phase::Ready,
            (RequestKind::Startup, Opcode::Authenticate)
            | (RequestKind::AuthResponse, Opcode::AuthChallenge) => Phase::Challenged,
            _ => self,
        }
    }
}
