// Written by dist/erase from crates/cqlp_build/src/messages.rt.
//! Messages.

use crate::kit_std::prelude::{KitNumber};
use crate::cqlp_build::held::{FrameEvents, has_flag};
use crate::cqlp_build::lists::Wanted;
use crate::cqlp_grammar::result_kind;
use crate::cqlp_message::Message;
use crate::cqlp_note::{Field, Opcode};

impl FrameEvents {
    /// Takes the message of a frame of this opcode.
    pub fn message(&mut self, opcode: Opcode) -> Message {
        match opcode {
            Opcode::Startup => self.startup(),
            Opcode::Options => Message::Options,
            Opcode::Query => self.query(),
            Opcode::Prepare => self.prepare(),
            Opcode::Execute => self.execute(),
            Opcode::Batch => self.batch(),
            Opcode::Register => self.register(),
            Opcode::AuthResponse => self.auth_response(),
            Opcode::Error => self.error(),
            Opcode::Ready => Message::Ready,
            Opcode::Authenticate => self.authenticate(),
            Opcode::Supported => self.supported(),
            Opcode::Result => self.result(),
            Opcode::Event => self.event(),
            Opcode::AuthChallenge => self.auth_challenge(),
            Opcode::AuthSuccess => self.auth_success(),
        }
    }

    /// Takes the options of a connection.
    fn startup(&mut self) -> Message {
        Message::Startup(self.counted(Field::Options, Wanted::PLAIN))
    }

    /// Takes a query by its text.
    fn query(&mut self) -> Message {
        let text = self.text(Field::Query);
        let params = self.params();
        Message::Query { text, params }
    }

    /// Takes the text of a query to be prepared.
    fn prepare(&mut self) -> Message {
        Message::Prepare(self.text(Field::Query))
    }

    /// Takes a query by the id of its prepared statement.
    fn execute(&mut self) -> Message {
        let id = self.statement();
        let params = self.params();
        Message::Execute { id, params }
    }

    /// Takes statements that are done together.
    fn batch(&mut self) -> Message {
        let kind = self.byte(Field::BatchType);
        let entries = self.counted(Field::Entries, Wanted::PLAIN);
        let consistency = self.short(Field::Consistency);
        let flags = self.byte(Field::BatchFlags);
        self.check(!has_flag(flags, 0x4F));
        let serial = self.serial_if(has_flag(flags, 0x10));
        let timestamp = self.timestamp_if(has_flag(flags, 0x20));
        Message::Batch {
            kind,
            entries,
            consistency,
            flags,
            serial,
            timestamp,
        }
    }

    /// Takes the types of the events that are asked for.
    fn register(&mut self) -> Message {
        Message::Register(self.texts(Field::EventTypes, Field::EventType))
    }

    /// Takes an answer to a challenge.
    fn auth_response(&mut self) -> Message {
        Message::AuthResponse(self.bytes(Field::Token))
    }

    /// Takes an error.
    fn error(&mut self) -> Message {
        let code = self.int(Field::ErrorCode);
        let message = self.text(Field::Message);
        let extra = self.extra(code.kit_other_sign());
        Message::Error {
            code,
            message,
            extra,
        }
    }

    /// Takes the class of an authenticator.
    fn authenticate(&mut self) -> Message {
        Message::Authenticate(self.text(Field::Class))
    }

    /// Takes the supported options.
    fn supported(&mut self) -> Message {
        Message::Supported(self.counted(Field::Options, Wanted::PLAIN))
    }

    /// Takes a result.
    fn result(&mut self) -> Message {
        let kind = self.int(Field::ResultKind);
        match kind.kit_other_sign() {
            result_kind::VOID => Message::Void,
            result_kind::SET_KEYSPACE => Message::SetKeyspace(self.text(Field::Keyspace)),
            result_kind::SCHEMA_CHANGE => Message::Change(self.change()),
            result_kind::PREPARED => Message::Prepared(self.prepared()),
            result_kind::ROWS => Message::Rows(self.page()),
            _ => Message::UnknownResult(kind),
        }
    }

    /// Takes an event.
    fn event(&mut self) -> Message {
        let event = self.text(Field::EventType);
        let detail = self.detail(&event);
        Message::Event { event, detail }
    }

    /// Takes a challenge.
    fn auth_challenge(&mut self) -> Message {
        Message::AuthChallenge(self.bytes(Field::Token))
    }

    /// Takes the end of an authentication.
    fn auth_success(&mut self) -> Message {
        Message::AuthSuccess(self.bytes(Field::Token))
    }
}
