// Written by dist/erase from crates/cqlp_build/src/item.rt.
//! Events that are held.

use crate::kit_std::prelude::{KitString, KitVec, String, Vec};
use crate::cqlp_build_cells::{Step, own as own_step};
use crate::cqlp_grammar::Event;
use crate::cqlp_kind::Kind;
use crate::cqlp_message::OwnedBound;
use crate::cqlp_note::{Address, BoundValue, Field};
use crate::kit_std::alloc::{AllocError};

/// What comes between a header and an end.
pub(crate) enum Item {
    /// A field, with what it holds.
    Holds(Field, Content),
    /// The kind of a type option.
    Kind(Kind),
    /// An event of the cell of a row and a column, at a level. The end of a value names no cell, and what it has here counts for nothing.
    Cell {
        row: u32,
        column: u32,
        level: u32,
        step: Step,
    },
}

/// What a field holds, with bytes of its own.
pub(crate) enum Content {
    Byte(u8),
    Short(u16),
    Int(i32),
    Long(i64),
    Uuid([u8; 16]),
    Count(u32),
    Text(String),
    Bytes(Option<Vec<u8>>),
    Bound(OwnedBound),
    Inet(Address, i32),
}

/// The same, with bytes of its own.
pub(crate) fn own(event: &Event<'_>) -> Result<Item, AllocError> {
    let (field, content) = match *event {
        Event::Byte { field, value } => (field, Content::Byte(value)),
        Event::Short { field, value } => (field, Content::Short(value)),
        Event::Int { field, value } => (field, Content::Int(value)),
        Event::Long { field, value } => (field, Content::Long(value)),
        Event::Uuid { field, value } => (field, Content::Uuid(value)),
        Event::Count { field, count } => (field, Content::Count(count)),
        Event::Text { field, text } => (field, Content::Text(String::from_str(text)?)),
        Event::Bytes { field, bytes } => (field, Content::Bytes(own_bytes(bytes)?)),
        Event::Bound { field, value } => (field, Content::Bound(own_bound(value)?)),
        Event::Inet {
            field,
            address,
            port,
        } => (field, Content::Inet(address, port)),
        Event::TypeNode(kind) => return Ok(Item::Kind(kind)),
        Event::Leaf { row, column, .. }
        | Event::Null { row, column, .. }
        | Event::Empty { row, column, .. }
        | Event::Enter { row, column, .. } => return own_cell(row, column, event),
        Event::Leave { .. } => return own_cell(0, 0, event),
        _ => unreachable!(),
    };
    Ok(Item::Holds(field, content))
}

/// The same of the cell of this row and column, with bytes of its own.
fn own_cell(row: u32, column: u32, event: &Event<'_>) -> Result<Item, AllocError> {
    let (level, step) = own_step(event)?;
    Ok(Item::Cell {
        row,
        column,
        level,
        step,
    })
}

/// The same \[bytes\], with memory of their own.
fn own_bytes(bytes: Option<&[u8]>) -> Result<Option<Vec<u8>>, AllocError> {
    match bytes {
        Some(bytes) => Ok(Some(Vec::from_slice(bytes)?)),
        None => Ok(None),
    }
}

/// The same \[value\], with bytes of its own.
fn own_bound(value: BoundValue<'_>) -> Result<OwnedBound, AllocError> {
    Ok(match value {
        BoundValue::Null => OwnedBound::Null,
        BoundValue::Unset => OwnedBound::Unset,
        BoundValue::Bytes(bytes) => OwnedBound::Bytes(Vec::from_slice(bytes)?),
    })
}
