// Written by dist/erase from crates/cqlp_compose/src/measure.rt.
//! How many bytes the events of cells cover.

use crate::cqlp_grammar::Event;
use crate::cqlp_kind::{Kind, Scalar};
use crate::cqlp_note::Address;

/// How many bytes of a page an event of a cell covers. Those of all events of its cells, added up, are what
/// [`page_head`](crate::cqlp_compose::page_head) and [`PageProgress::start`](crate::cqlp_compose::PageProgress::start) take.
///
/// None of a part of a scalar, which is not written, and of an event that is none of a cell.
#[must_use]
pub fn event_size(event: &Event<'_>) -> u64 {
    match event {
        Event::Leaf { scalar, .. } => 4 + scalar_len(scalar),
        Event::Null { .. } | Event::Empty { .. } => 4,
        Event::Enter { kind, .. } => match kind {
            Kind::List | Kind::Set | Kind::Map => 8,
            _ => 4,
        },
        _ => 0,
    }
}

/// How many bytes the content of a scalar has.
fn scalar_len(scalar: &Scalar<'_>) -> u64 {
    match scalar {
        Scalar::Custom(c) | Scalar::Blob(c) | Scalar::Varint(c) | Scalar::Raw(c) => len_of(c),
        Scalar::Ascii(t) | Scalar::Varchar(t) => t.len() as u64,
        Scalar::Decimal { unscaled, .. } => 4 + len_of(unscaled),
        Scalar::Double(c) => len_of(c),
        Scalar::Float(c) => len_of(c),
        Scalar::Bigint(_) | Scalar::Counter(_) | Scalar::Timestamp(_) | Scalar::Time(_) => 8,
        Scalar::Int(_) | Scalar::Date(_) => 4,
        Scalar::Smallint(_) => 2,
        Scalar::Boolean(_) | Scalar::Tinyint(_) => 1,
        Scalar::Uuid(c) | Scalar::Timeuuid(c) => len_of(c),
        Scalar::Inet(Address::V4(c)) => len_of(c),
        Scalar::Inet(Address::V6(c)) => len_of(c),
    }
}

/// How many bytes these are.
fn len_of(bytes: &[u8]) -> u64 {
    bytes.len() as u64
}
