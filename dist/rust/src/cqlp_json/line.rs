// Written by dist/erase from crates/cqlp_json/src/line.rt.
//! The line of an event.

use crate::cqlp_json::member::{Member, Value, bigint, int, number, put_members, smallint};
use crate::cqlp_grammar::{Event, SinkFault};
use crate::cqlp_kind::{Kind, Scalar};
use crate::cqlp_note::{Address, BoundValue, Field, Header, Target};
use crate::cqlp_text::{Pen, TextWriter, field_name, kind_name, opcode_name};

/// Appends the JSON line of an event at an offset. A fault is the target's own.
///
/// # Errors
///
/// The fault of the target.
#[inline]
pub fn json_line<W: Target>(at: u64, event: &Event<'_>, target: &mut W) -> Result<(), SinkFault> {
    let mut writer = TextWriter::over(target);
    match put_json_line(at, event, &mut writer) {
        Ok(()) => {
            let passed = writer.flush();
            let _ = writer.into_target();
            passed
        }
        Err(fault) => {
            let _ = writer.into_target();
            Err(fault)
        }
    }
}

/// Has a writer take the JSON line of an event at an offset.
#[inline]
pub fn put_json_line<P: Pen>(
    at: u64,
    event: &Event<'_>,
    writer: &mut TextWriter<P>,
) -> Result<(), SinkFault> {
    writer.put(b"{\"at\":")?;
    writer.put_number(at)?;
    put_event(event, writer)?;
    writer.put(b"}\n")
}

/// Takes the members of an event after its offset.
fn put_event<P: Pen>(event: &Event<'_>, writer: &mut TextWriter<P>) -> Result<(), SinkFault> {
    match *event {
        Event::Frame(header) => put_header(header, writer),
        Event::Byte { field, value } => put_field("Byte", field, number(u32::from(value)), writer),
        Event::Short { field, value } => put_field(
            "Short",
            field,
            number(u32::from(value)),
            writer,
        ),
        Event::Int { field, value } => put_field("Int", field, int(value), writer),
        Event::Long { field, value } => put_field("Long", field, bigint(value), writer),
        Event::Uuid { field, value } => put_field(
            "Uuid",
            field,
            Value::Scalar(Scalar::Uuid(value)),
            writer,
        ),
        Event::Count { field, count } => put_field("Count", field, number(count), writer),
        Event::Text { field, text } => put_field(
            "Text",
            field,
            Value::Scalar(Scalar::Varchar(text)),
            writer,
        ),
        Event::Bytes { field, bytes } => put_bytes_field(field, bytes, writer),
        Event::Bound { field, value } => put_bound(field, value, writer),
        Event::Inet {
            field,
            address,
            port,
        } => put_inet(field, address, port, writer),
        Event::TypeNode(kind) => put_node(kind, writer),
        Event::Leaf {
            row,
            column,
            level,
            scalar,
        } => put_leaf(row, column, level, scalar, writer),
        Event::Null { row, column, level } => put_place("Null", row, column, level, writer),
        Event::Empty { row, column, level } => put_place("Empty", row, column, level, writer),
        Event::Enter {
            row,
            column,
            level,
            kind,
            items,
        } => put_enter(row, column, level, kind, items, writer),
        Event::Leave { level, items } => put_leave(level, items, writer),
        Event::Part {
            row,
            column,
            level,
            offset,
            bytes,
            last,
        } => put_part(row, column, level, offset, bytes, last, writer),
        Event::End { extra } => put_end(extra, writer),
    }
}

fn put_header<P: Pen>(header: Header, writer: &mut TextWriter<P>) -> Result<(), SinkFault> {
    put_members(
        &[
            Member(
                ",\"event\":\"Frame\",\"direction\":",
                Value::Name(direction(header.response)),
            ),
            Member(",\"flags\":", Value::Number(u64::from(header.flags))),
            Member(",\"stream\":", smallint(header.stream)),
            Member(",\"opcode\":", Value::Name(opcode_name(header.opcode))),
            Member(",\"length\":", Value::Number(u64::from(header.length))),
        ],
        writer,
    )
}

/// Takes a field: the event's name, which says its notation, the field's, and its value.
#[inline]
fn put_field<P: Pen>(
    notation: &str,
    field: Field,
    value: Value<'_>,
    writer: &mut TextWriter<P>,
) -> Result<(), SinkFault> {
    put_members(
        &[
            Member(",\"event\":", Value::Name(notation)),
            Member(",\"name\":", Value::Name(field_name(field))),
            Member(",\"value\":", value),
        ],
        writer,
    )
}

fn put_bytes_field<P: Pen>(
    field: Field,
    bytes: Option<&[u8]>,
    writer: &mut TextWriter<P>,
) -> Result<(), SinkFault> {
    match bytes {
        None => put_field("Bytes", field, Value::Null, writer),
        Some(bytes) => put_field("Bytes", field, Value::Scalar(Scalar::Blob(bytes)), writer),
    }
}

/// Takes a \[value\] of a request, by whether it is set, and its bytes.
fn put_bound<P: Pen>(
    field: Field,
    value: BoundValue<'_>,
    writer: &mut TextWriter<P>,
) -> Result<(), SinkFault> {
    match value {
        BoundValue::Null => put_set(field, true, Value::Null, writer),
        BoundValue::Unset => put_set(field, false, Value::Null, writer),
        BoundValue::Bytes(bytes) => {
            put_set(field, true, Value::Scalar(Scalar::Blob(bytes)), writer)
        }
    }
}

fn put_set<P: Pen>(
    field: Field,
    set: bool,
    value: Value<'_>,
    writer: &mut TextWriter<P>,
) -> Result<(), SinkFault> {
    put_members(
        &[
            Member(
                ",\"event\":\"Bound\",\"name\":",
                Value::Name(field_name(field)),
            ),
            Member(",\"set\":", Value::Scalar(Scalar::Boolean(set))),
            Member(",\"value\":", value),
        ],
        writer,
    )
}

fn put_inet<P: Pen>(
    field: Field,
    address: Address,
    port: i32,
    writer: &mut TextWriter<P>,
) -> Result<(), SinkFault> {
    put_members(
        &[
            Member(
                ",\"event\":\"Inet\",\"name\":",
                Value::Name(field_name(field)),
            ),
            Member(",\"address\":", Value::Scalar(Scalar::Inet(address))),
            Member(",\"port\":", int(port)),
        ],
        writer,
    )
}

fn put_node<P: Pen>(kind: Kind, writer: &mut TextWriter<P>) -> Result<(), SinkFault> {
    put_members(
        &[Member(
            ",\"event\":\"TypeNode\",\"kind\":",
            Value::Name(kind_name(kind)),
        )],
        writer,
    )
}

/// Takes an event of a value that says nothing but where it is.
fn put_place<P: Pen>(
    name: &str,
    row: u32,
    column: u32,
    level: u32,
    writer: &mut TextWriter<P>,
) -> Result<(), SinkFault> {
    put_members(
        &[
            Member(",\"event\":", Value::Name(name)),
            Member(",\"row\":", Value::Number(u64::from(row))),
            Member(",\"column\":", Value::Number(u64::from(column))),
            Member(",\"level\":", Value::Number(u64::from(level))),
        ],
        writer,
    )
}

#[inline]
fn put_leaf<P: Pen>(
    row: u32,
    column: u32,
    level: u32,
    scalar: Scalar<'_>,
    writer: &mut TextWriter<P>,
) -> Result<(), SinkFault> {
    put_members(
        &[
            Member(
                ",\"event\":\"Leaf\",\"row\":",
                Value::Number(u64::from(row)),
            ),
            Member(",\"column\":", Value::Number(u64::from(column))),
            Member(",\"level\":", Value::Number(u64::from(level))),
            Member(",\"kind\":", Value::Name(kind_name(kind_of(&scalar)))),
            Member(",\"value\":", Value::Scalar(scalar)),
        ],
        writer,
    )
}

fn put_enter<P: Pen>(
    row: u32,
    column: u32,
    level: u32,
    kind: Kind,
    items: u32,
    writer: &mut TextWriter<P>,
) -> Result<(), SinkFault> {
    put_members(
        &[
            Member(
                ",\"event\":\"Enter\",\"row\":",
                Value::Number(u64::from(row)),
            ),
            Member(",\"column\":", Value::Number(u64::from(column))),
            Member(",\"level\":", Value::Number(u64::from(level))),
            Member(",\"kind\":", Value::Name(kind_name(kind))),
            Member(",\"items\":", Value::Number(u64::from(items))),
        ],
        writer,
    )
}

fn put_leave<P: Pen>(level: u32, items: u32, writer: &mut TextWriter<P>) -> Result<(), SinkFault> {
    put_members(
        &[
            Member(
                ",\"event\":\"Leave\",\"level\":",
                Value::Number(u64::from(level)),
            ),
            Member(",\"items\":", Value::Number(u64::from(items))),
        ],
        writer,
    )
}

fn put_part<P: Pen>(
    row: u32,
    column: u32,
    level: u32,
    offset: u32,
    bytes: &[u8],
    last: bool,
    writer: &mut TextWriter<P>,
) -> Result<(), SinkFault> {
    put_members(
        &[
            Member(
                ",\"event\":\"Part\",\"row\":",
                Value::Number(u64::from(row)),
            ),
            Member(",\"column\":", Value::Number(u64::from(column))),
            Member(",\"level\":", Value::Number(u64::from(level))),
            Member(",\"offset\":", Value::Number(u64::from(offset))),
            Member(",\"last\":", Value::Scalar(Scalar::Boolean(last))),
            Member(",\"value\":", Value::Scalar(Scalar::Blob(bytes))),
        ],
        writer,
    )
}

fn put_end<P: Pen>(extra: u32, writer: &mut TextWriter<P>) -> Result<(), SinkFault> {
    put_members(
        &[Member(
            ",\"event\":\"End\",\"extra\":",
            Value::Number(u64::from(extra)),
        )],
        writer,
    )
}

fn direction(response: bool) -> &'static str {
    if response { "response" } else { "request" }
}

/// The kind of a scalar.
fn kind_of(scalar: &Scalar<'_>) -> Kind {
    match *scalar {
        Scalar::Custom(_) => Kind::Custom,
        Scalar::Ascii(_) => Kind::Ascii,
        Scalar::Bigint(_) => Kind::Bigint,
        Scalar::Blob(_) => Kind::Blob,
        Scalar::Boolean(_) => Kind::Boolean,
        Scalar::Counter(_) => Kind::Counter,
        Scalar::Decimal { .. } => Kind::Decimal,
        Scalar::Double(_) => Kind::Double,
        Scalar::Float(_) => Kind::Float,
        Scalar::Int(_) => Kind::Int,
        Scalar::Timestamp(_) => Kind::Timestamp,
        Scalar::Uuid(_) => Kind::Uuid,
        Scalar::Varchar(_) => Kind::Varchar,
        Scalar::Varint(_) => Kind::Varint,
        Scalar::Timeuuid(_) => Kind::Timeuuid,
        Scalar::Inet(_) => Kind::Inet,
        Scalar::Date(_) => Kind::Date,
        Scalar::Time(_) => Kind::Time,
        Scalar::Smallint(_) => Kind::Smallint,
        Scalar::Tinyint(_) => Kind::Tinyint,
        Scalar::Raw(_) => Kind::Raw,
    }
}
