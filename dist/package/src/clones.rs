//! Copies and hashes of what a program owns. Written by hand, and not proved.
//!
//! A copy asks for memory as those of std do, which ends the program where it is refused. Two values that are equal have the same hash.
use core::hash::{Hash, Hasher};
use core::mem::discriminant;

use crate::cqlp_kind::Kind;
use crate::cqlp_message::{
    BatchEntry, ErrorExtra, Frame, Message, Metadata, OwnedBound, Prepared, QueryParams, Rows, SchemaChange, SchemaOptions, ServerEvent,
    Spec,
};
use crate::cqlp_note::{Address, Header, Limits, Opcode};
use crate::cqlp_session::Ticket;
use crate::cqlp_type::TypeTree;
use crate::cqlp_value::{Atom, Value};

/// Structs, by their fields.
macro_rules! hash_of_structs {
    ($($name:ident { $($field:ident),+ })+) => {$(
        impl Hash for $name {
            fn hash<H: Hasher>(&self, state: &mut H) {
                let $name { $($field),+ } = self;
                $($field.hash(state);)+
            }
        }
    )+};
}

macro_rules! structs {
    ($($name:ident { $($field:ident),+ })+) => {
        $(
            impl Clone for $name {
                fn clone(&self) -> Self {
                    let $name { $($field),+ } = self;
                    $name { $($field: $field.clone()),+ }
                }
            }
        )+
        hash_of_structs! { $($name { $($field),+ })+ }
    };
}

/// Enums, by their variants, each with what it holds.
macro_rules! enums {
    ($($name:ident { $($variant:ident $(($($item:ident),+))? $({ $($field:ident),+ })?;)+ })+) => {$(
        impl Clone for $name {
            fn clone(&self) -> Self {
                match self {
                    $($name::$variant $(($($item),+))? $({ $($field),+ })? =>
                        $name::$variant $(($($item.clone()),+))? $({ $($field: $field.clone()),+ })?,)+
                }
            }
        }

        impl Hash for $name {
            fn hash<H: Hasher>(&self, state: &mut H) {
                discriminant(self).hash(state);
                match self {
                    $($name::$variant $(($($item),+))? $({ $($field),+ })? => {
                        $($($item.hash(state);)+)?
                        $($($field.hash(state);)+)?
                    })+
                }
            }
        }
    )+};
}

structs! {
    Frame { flags, stream, tracing, warnings, payload, message }
    QueryParams { consistency, flags, values, page_size, paging, serial, timestamp }
    Metadata { flags, columns, paging, table, specs }
    Spec { table, name, tree }
    Rows { meta, rows, cells }
    Prepared { id, flags, columns, keys, table, specs, result }
    SchemaChange { change, target, options }
}

hash_of_structs! {
    Header { response, flags, stream, opcode, length }
    Limits { text, cell, entries, depth, types, parts }
    Ticket { id, number }
}

enums! {
    Message {
        Startup(options);
        Options;
        Query { text, params };
        Prepare(text);
        Execute { id, params };
        Batch { kind, entries, consistency, flags, serial, timestamp };
        Register(types);
        AuthResponse(token);
        Error { code, message, extra };
        Ready;
        Authenticate(class);
        Supported(options);
        Void;
        SetKeyspace(name);
        Rows(page);
        Prepared(statement);
        Change(change);
        UnknownResult(kind);
        Event { event, detail };
        AuthChallenge(token);
        AuthSuccess(token);
    }
    OwnedBound { Null; Unset; Bytes(bytes); }
    BatchEntry { Text(text, values); Id(id, values); }
    ErrorExtra {
        Plain;
        Unavailable { consistency, required, alive };
        WriteTimeout { consistency, received, block_for, write_type };
        ReadTimeout { consistency, received, block_for, data_present };
        ReadFailure { consistency, received, block_for, failures, data_present };
        FunctionFailure { keyspace, name, arguments };
        WriteFailure { consistency, received, block_for, failures, write_type };
        AlreadyExists { keyspace, table };
        Unprepared { id };
    }
    SchemaOptions { Keyspace(name); Named(keyspace, name); Callable(keyspace, name, arguments); Unknown; }
    ServerEvent { Node { change, address, port }; Schema(change); Unknown; }
    TypeTree { Plain(kind); Custom(class); List(of); Set(of); Map(keys, values); Udt { keyspace, name, fields }; Tuple(fields); }
    Value { Null; Empty; Leaf(atom); List(items); Map(pairs); Set(items); Tuple(fields); Udt(fields); }
    Atom {
        Custom(bytes);
        Ascii(text);
        Bigint(number);
        Blob(bytes);
        Boolean(truth);
        Counter(number);
        Decimal { scale, unscaled };
        Double(bytes);
        Float(bytes);
        Int(number);
        Timestamp(number);
        Uuid(bytes);
        Varchar(text);
        Varint(bytes);
        Timeuuid(bytes);
        Inet(address);
        Date(days);
        Time(number);
        Smallint(number);
        Tinyint(number);
        Raw(bytes);
    }
}

impl Hash for Address {
    fn hash<H: Hasher>(&self, state: &mut H) {
        match self {
            Address::V4(octets) => octets.hash(state),
            Address::V6(octets) => octets.hash(state),
        }
    }
}

impl Hash for Opcode {
    fn hash<H: Hasher>(&self, state: &mut H) {
        self.number().hash(state);
    }
}

impl Hash for Kind {
    fn hash<H: Hasher>(&self, state: &mut H) {
        discriminant(self).hash(state);
    }
}

/// Null, as a column that a row does not have.
impl Default for Value {
    fn default() -> Value {
        Value::Null
    }
}

/// [`Limits::DEFAULT`].
impl Default for Limits {
    fn default() -> Limits {
        Limits::DEFAULT
    }
}
