// Written by dist/erase from crates/cqlp_message/src/agreement.rt.
//! Whether flags, codes and names agree with the parts that they announce.

use crate::kit_std::prelude::{KitNumber, String};
use crate::cqlp_message::frame::Frame;
use crate::cqlp_message::message::Message;
use crate::cqlp_message::request::{OwnedBound, QueryParams};
use crate::cqlp_message::response::{
    ErrorExtra, Metadata, Prepared, Rows, SchemaChange, SchemaOptions, ServerEvent, Spec,
};
use crate::cqlp_grammar::{error_code, event_fields, has, target_fields};
use crate::cqlp_note::Opcode;
use crate::cqlp_type::check_type;

/// Whether both are so, or neither is.
fn same(announced: bool, there: bool) -> bool {
    if announced { there } else { !there }
}

impl QueryParams {
    /// Whether the parts are those of the flags, and the values have names where they are to.
    fn agrees(&self) -> bool {
        let flags = u32::from(self.flags);
        same(has(flags, 0x01), self.values.is_some())
            && self.are_named(has(flags, 0x40))
            && same(has(flags, 0x04), self.page_size.is_some())
            && same(has(flags, 0x08), self.paging.is_some())
            && same(has(flags, 0x10), self.serial.is_some())
            && same(has(flags, 0x20), self.timestamp.is_some())
    }

    /// Whether the values have names, or none has.
    fn are_named(&self, named: bool) -> bool {
        match &self.values {
            Some(values) => all_named(named, values),
            None => true,
        }
    }
}

/// Whether each value has a name, or none has.
fn all_named(named: bool, values: &[(Option<String>, OwnedBound)]) -> bool {
    values.iter().all(|value| same(named, value.0.is_some()))
}

/// Whether the parts at a batch's end are those of its flags.
fn batch_agrees(flags: u8, serial: Option<u16>, timestamp: Option<i64>) -> bool {
    let flags = u32::from(flags);
    !has(flags, 0x4F)
        && same(has(flags, 0x10), serial.is_some())
        && same(has(flags, 0x20), timestamp.is_some())
}

/// Whether an error of this code has more than its message.
fn has_extra(code: u32) -> bool {
    match code {
        error_code::UNAVAILABLE
        | error_code::WRITE_TIMEOUT
        | error_code::READ_TIMEOUT
        | error_code::READ_FAILURE
        | error_code::FUNCTION_FAILURE
        | error_code::WRITE_FAILURE
        | error_code::ALREADY_EXISTS
        | error_code::UNPREPARED => true,
        _ => false,
    }
}

impl ErrorExtra {
    /// Whether it is what this code adds.
    fn agrees(&self, code: u32) -> bool {
        match self {
            ErrorExtra::Plain => !has_extra(code),
            ErrorExtra::Unavailable { .. } => code == error_code::UNAVAILABLE,
            ErrorExtra::WriteTimeout { .. } => code == error_code::WRITE_TIMEOUT,
            ErrorExtra::ReadTimeout { .. } => code == error_code::READ_TIMEOUT,
            ErrorExtra::ReadFailure { .. } => code == error_code::READ_FAILURE,
            ErrorExtra::FunctionFailure { .. } => code == error_code::FUNCTION_FAILURE,
            ErrorExtra::WriteFailure { .. } => code == error_code::WRITE_FAILURE,
            ErrorExtra::AlreadyExists { .. } => code == error_code::ALREADY_EXISTS,
            ErrorExtra::Unprepared { .. } => code == error_code::UNPREPARED,
        }
    }
}

impl SchemaOptions {
    /// Whether they are those of this target.
    fn agrees(&self, target: &str) -> bool {
        match self {
            SchemaOptions::Keyspace(_) => target == "KEYSPACE",
            SchemaOptions::Named(_, _) => target == "TABLE" || target == "TYPE",
            SchemaOptions::Callable(_, _, _) => target == "FUNCTION" || target == "AGGREGATE",
            SchemaOptions::Unknown => target_fields(target).is_empty(),
        }
    }
}

impl SchemaChange {
    /// Whether the options are those of the target.
    fn agrees(&self) -> bool {
        self.options.agrees(self.target.as_str())
    }
}

impl ServerEvent {
    /// Whether it is what an event of this type reports.
    fn agrees(&self, event: &str) -> bool {
        match self {
            ServerEvent::Node { .. } => event == "TOPOLOGY_CHANGE" || event == "STATUS_CHANGE",
            ServerEvent::Schema(change) => event == "SCHEMA_CHANGE" && change.agrees(),
            ServerEvent::Unknown => event_fields(event).is_empty(),
        }
    }
}

impl Spec {
    /// Whether it has a table where it is to have one of its own, and one type.
    fn agrees(&self, own: bool) -> bool {
        same(own, self.table.is_some()) && check_type(&self.tree).formed
    }
}

/// Whether there are as many specs as columns, and the tables are those of the flags.
fn specs_agree(flags: u32, columns: u32, table: &Option<(String, String)>, specs: &[Spec]) -> bool {
    let one_table = has(flags, 0x01);
    specs.len() == columns as usize
        && same(one_table, table.is_some())
        && all_agree(!one_table, specs)
}

/// Whether each spec agrees.
fn all_agree(own: bool, specs: &[Spec]) -> bool {
    each_agrees(own, specs)
}

/// The same of the specs as they lie in memory.
fn each_agrees(own: bool, specs: &[Spec]) -> bool {
    specs.iter().all(|spec| spec.agrees(own))
}

impl Metadata {
    /// Whether the parts are those of the flags.
    fn agrees(&self) -> bool {
        same(has(self.flags.kit_other_sign(), 0x02), self.paging.is_some()) && self.columns_agree()
    }

    /// Whether the columns are described where the flags say so.
    fn columns_agree(&self) -> bool {
        let flags = self.flags.kit_other_sign();
        match &self.specs {
            Some(specs) => {
                !has(flags, 0x04) && specs_agree(flags, self.columns, &self.table, specs)
            }
            None => has(flags, 0x04) && self.table.is_none(),
        }
    }
}

impl Prepared {
    /// Whether the parts are those of the flags, in its own metadata and in those of its pages.
    fn agrees(&self) -> bool {
        let flags = self.flags.kit_other_sign();
        specs_agree(flags, self.columns, &self.table, &self.specs) && self.result.agrees()
    }
}

impl Message {
    /// Its opcode.
    #[must_use]
    pub fn opcode(&self) -> Opcode {
        match self {
            Message::Startup(_) => Opcode::Startup,
            Message::Options => Opcode::Options,
            Message::Query { .. } => Opcode::Query,
            Message::Prepare(_) => Opcode::Prepare,
            Message::Execute { .. } => Opcode::Execute,
            Message::Batch { .. } => Opcode::Batch,
            Message::Register(_) => Opcode::Register,
            Message::AuthResponse(_) => Opcode::AuthResponse,
            Message::Error { .. } => Opcode::Error,
            Message::Ready => Opcode::Ready,
            Message::Authenticate(_) => Opcode::Authenticate,
            Message::Supported(_) => Opcode::Supported,
            Message::Void
            | Message::SetKeyspace(_)
            | Message::Rows(_)
            | Message::Prepared(_)
            | Message::Change(_)
            | Message::UnknownResult(_) => Opcode::Result,
            Message::Event { .. } => Opcode::Event,
            Message::AuthChallenge(_) => Opcode::AuthChallenge,
            Message::AuthSuccess(_) => Opcode::AuthSuccess,
        }
    }

    /// Whether it is a response.
    #[must_use]
    pub fn is_response(&self) -> bool {
        self.opcode().is_response()
    }

    /// Whether its flags, codes and names agree with its parts.
    fn agrees(&self) -> bool {
        match self {
            Message::Query { params, .. } => params.agrees(),
            Message::Execute { params, .. } => params.agrees(),
            Message::Batch {
                flags,
                serial,
                timestamp,
                ..
            } => batch_agrees(*flags, *serial, *timestamp),
            Message::Error { code, extra, .. } => extra.agrees(code.kit_other_sign()),
            Message::Rows(page) => page.meta.agrees(),
            Message::Prepared(statement) => statement.agrees(),
            Message::Change(change) => change.agrees(),
            Message::UnknownResult(kind) => is_no_result(kind.kit_other_sign()),
            Message::Event { event, detail } => detail.agrees(event.as_str()),
            _ => true,
        }
    }

    /// Whether a page has a cell of each row and each column.
    #[must_use]
    pub fn has_its_cells(&self) -> bool {
        match self {
            Message::Rows(page) => page.has_its_cells(),
            _ => true,
        }
    }
}

/// Whether no result is of this kind.
fn is_no_result(kind: u32) -> bool {
    kind == 0 || kind > 5
}

impl Rows {
    /// Whether it has a cell of each row and each column.
    fn has_its_cells(&self) -> bool {
        self.cells.len() as u64 == u64::from(self.rows) * u64::from(self.meta.columns)
    }
}

impl Frame {
    /// Whether a request has neither a tracing id nor warnings.
    #[must_use]
    pub fn is_directed(&self) -> bool {
        self.message.is_response() || (self.tracing.is_none() && self.warnings.is_none())
    }

    /// Whether its flags, codes and names agree with its parts.
    #[must_use]
    pub fn agrees(&self) -> bool {
        let flags = u32::from(self.flags);
        let response = self.message.is_response();
        !has(flags, 0x01)
            && same(response && has(flags, 0x02), self.tracing.is_some())
            && same(response && has(flags, 0x08), self.warnings.is_some())
            && same(has(flags, 0x04), self.payload.is_some())
            && self.message.agrees()
    }
}
