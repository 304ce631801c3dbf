// Written by dist/erase from crates/cqlp_build/src/responses.rt.
//! Parts of responses.

use crate::cqlp_build::held::FrameEvents;
use crate::cqlp_grammar::error_code;
use crate::cqlp_message::{ErrorExtra, SchemaChange, SchemaOptions, ServerEvent};
use crate::cqlp_note::Field;

impl FrameEvents {
    /// Takes what comes after the message of an error of this code.
    pub fn extra(&mut self, code: u32) -> ErrorExtra {
        match code {
            error_code::UNAVAILABLE => self.unavailable(),
            error_code::WRITE_TIMEOUT => self.write_timeout(),
            error_code::READ_TIMEOUT => self.read_timeout(),
            error_code::READ_FAILURE => self.read_failure(),
            error_code::FUNCTION_FAILURE => self.function_failure(),
            error_code::WRITE_FAILURE => self.write_failure(),
            error_code::ALREADY_EXISTS => self.already_exists(),
            error_code::UNPREPARED => self.unprepared(),
            _ => ErrorExtra::Plain,
        }
    }

    /// Takes what an Unavailable_exception has.
    fn unavailable(&mut self) -> ErrorExtra {
        let consistency = self.short(Field::Consistency);
        let required = self.int(Field::Required);
        let alive = self.int(Field::Alive);
        ErrorExtra::Unavailable {
            consistency,
            required,
            alive,
        }
    }

    /// Takes what a Write_timeout has.
    fn write_timeout(&mut self) -> ErrorExtra {
        let consistency = self.short(Field::Consistency);
        let received = self.int(Field::Received);
        let block_for = self.int(Field::BlockFor);
        let write_type = self.text(Field::WriteType);
        ErrorExtra::WriteTimeout {
            consistency,
            received,
            block_for,
            write_type,
        }
    }

    /// Takes what a Read_timeout has.
    fn read_timeout(&mut self) -> ErrorExtra {
        let consistency = self.short(Field::Consistency);
        let received = self.int(Field::Received);
        let block_for = self.int(Field::BlockFor);
        let data_present = self.byte(Field::DataPresent);
        ErrorExtra::ReadTimeout {
            consistency,
            received,
            block_for,
            data_present,
        }
    }

    /// Takes what a Read_failure has.
    fn read_failure(&mut self) -> ErrorExtra {
        let consistency = self.short(Field::Consistency);
        let received = self.int(Field::Received);
        let block_for = self.int(Field::BlockFor);
        let failures = self.int(Field::Failures);
        let data_present = self.byte(Field::DataPresent);
        ErrorExtra::ReadFailure {
            consistency,
            received,
            block_for,
            failures,
            data_present,
        }
    }

    /// Takes what a Function_failure has.
    fn function_failure(&mut self) -> ErrorExtra {
        let keyspace = self.text(Field::Keyspace);
        let name = self.text(Field::Name);
        let arguments = self.texts(Field::Arguments, Field::Argument);
        ErrorExtra::FunctionFailure {
            keyspace,
            name,
            arguments,
        }
    }

    /// Takes what a Write_failure has.
    fn write_failure(&mut self) -> ErrorExtra {
        let consistency = self.short(Field::Consistency);
        let received = self.int(Field::Received);
        let block_for = self.int(Field::BlockFor);
        let failures = self.int(Field::Failures);
        let write_type = self.text(Field::WriteType);
        ErrorExtra::WriteFailure {
            consistency,
            received,
            block_for,
            failures,
            write_type,
        }
    }

    /// Takes what an Already_exists has.
    fn already_exists(&mut self) -> ErrorExtra {
        let keyspace = self.text(Field::Keyspace);
        let table = self.text(Field::Table);
        ErrorExtra::AlreadyExists { keyspace, table }
    }

    /// Takes what an Unprepared has.
    fn unprepared(&mut self) -> ErrorExtra {
        let id = self.statement();
        ErrorExtra::Unprepared { id }
    }

    /// Takes a change of the schema.
    pub fn change(&mut self) -> SchemaChange {
        let change = self.text(Field::Change);
        let target = self.text(Field::Target);
        let options = self.options(&target);
        SchemaChange {
            change,
            target,
            options,
        }
    }

    /// Takes what was changed, of a target of this kind.
    fn options(&mut self, target: &str) -> SchemaOptions {
        if target == "KEYSPACE" {
            SchemaOptions::Keyspace(self.text(Field::Keyspace))
        } else if target == "TABLE" || target == "TYPE" {
            self.named()
        } else if target == "FUNCTION" || target == "AGGREGATE" {
            self.callable()
        } else {
            SchemaOptions::Unknown
        }
    }

    /// Takes a keyspace, and the name of what is in it.
    fn named(&mut self) -> SchemaOptions {
        let keyspace = self.text(Field::Keyspace);
        let name = self.text(Field::Name);
        SchemaOptions::Named(keyspace, name)
    }

    /// Takes a keyspace, the name of what can be called in it, and the types of its arguments.
    fn callable(&mut self) -> SchemaOptions {
        let keyspace = self.text(Field::Keyspace);
        let name = self.text(Field::Name);
        let arguments = self.texts(Field::Arguments, Field::Argument);
        SchemaOptions::Callable(keyspace, name, arguments)
    }

    /// Takes what an event of this type reports.
    pub fn detail(&mut self, event: &str) -> ServerEvent {
        if event == "TOPOLOGY_CHANGE" || event == "STATUS_CHANGE" {
            self.node()
        } else if event == "SCHEMA_CHANGE" {
            ServerEvent::Schema(self.change())
        } else {
            ServerEvent::Unknown
        }
    }

    /// Takes a change of a node.
    fn node(&mut self) -> ServerEvent {
        let change = self.text(Field::Change);
        let (address, port) = self.inet();
        ServerEvent::Node {
            change,
            address,
            port,
        }
    }
}
