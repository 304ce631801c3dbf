// Written by dist/erase from crates/cqlp_note/src/opcode.rt.
//! The kinds of messages.

/// What a message is. Section 2.4 of `native_protocol_v4.spec`.
#[derive(Clone, Copy, Debug, PartialEq, Eq)]
pub enum Opcode {
    /// A request failed. Section 4.2.1.
    Error,
    /// The first request that opens a connection. Section 4.1.1.
    Startup,
    /// The connection is open. Section 4.2.2.
    Ready,
    /// The client is to authenticate. Section 4.2.3.
    Authenticate,
    /// Which options are there? Section 4.1.3.
    Options,
    /// The options that are there. Section 4.2.4.
    Supported,
    /// A statement, to be run. Section 4.1.4.
    Query,
    /// What came of a statement. Section 4.2.5.
    Result,
    /// A statement, to be prepared. Section 4.1.5.
    Prepare,
    /// A prepared statement, to be run. Section 4.1.6.
    Execute,
    /// Events are asked for. Section 4.1.8.
    Register,
    /// Something happened. Section 4.2.6.
    Event,
    /// Several statements, to be run. Section 4.1.7.
    Batch,
    /// The client is to say more. Section 4.2.7.
    AuthChallenge,
    /// What the client says to authenticate. Section 4.1.2.
    AuthResponse,
    /// The client is known. Section 4.2.8.
    AuthSuccess,
}

impl Opcode {
    /// The opcode that has this number, if one has: 00 to 10 but for 04.
    #[must_use]
    pub fn from_number(number: u8) -> Option<Opcode> {
        match number {
            0x00 => Some(Opcode::Error),
            0x01 => Some(Opcode::Startup),
            0x02 => Some(Opcode::Ready),
            0x03 => Some(Opcode::Authenticate),
            0x05 => Some(Opcode::Options),
            0x06 => Some(Opcode::Supported),
            0x07 => Some(Opcode::Query),
            0x08 => Some(Opcode::Result),
            0x09 => Some(Opcode::Prepare),
            0x0A => Some(Opcode::Execute),
            0x0B => Some(Opcode::Register),
            0x0C => Some(Opcode::Event),
            0x0D => Some(Opcode::Batch),
            0x0E => Some(Opcode::AuthChallenge),
            0x0F => Some(Opcode::AuthResponse),
            0x10 => Some(Opcode::AuthSuccess),
            _ => None,
        }
    }

    /// The opcode's number.
    #[must_use]
    pub fn number(self) -> u8 {
        match self {
            Opcode::Error => 0x00,
            Opcode::Startup => 0x01,
            Opcode::Ready => 0x02,
            Opcode::Authenticate => 0x03,
            Opcode::Options => 0x05,
            Opcode::Supported => 0x06,
            Opcode::Query => 0x07,
            Opcode::Result => 0x08,
            Opcode::Prepare => 0x09,
            Opcode::Execute => 0x0A,
            Opcode::Register => 0x0B,
            Opcode::Event => 0x0C,
            Opcode::Batch => 0x0D,
            Opcode::AuthChallenge => 0x0E,
            Opcode::AuthResponse => 0x0F,
            Opcode::AuthSuccess => 0x10,
        }
    }

    /// Whether messages of this kind are responses.
    #[must_use]
    pub fn is_response(self) -> bool {
        match self {
            Opcode::Error
            | Opcode::Ready
            | Opcode::Authenticate
            | Opcode::Supported
            | Opcode::Result
            | Opcode::Event
            | Opcode::AuthChallenge
            | Opcode::AuthSuccess => true,
            Opcode::Startup
            | Opcode::Options
            | Opcode::Query
            | Opcode::Prepare
            | Opcode::Execute
            | Opcode::Register
            | Opcode::Batch
            | Opcode::AuthResponse => false,
        }
    }
}
