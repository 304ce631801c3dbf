// Written by dist/erase from crates/cqlp_columns/src/found.rt.
//! Cells among events.

use crate::cqlp_columns::cell::CellRef;
use crate::cqlp_grammar::Event;

/// What an event has of a page's cells.
#[derive(Clone, Copy)]
pub(crate) enum Found<'a> {
    Nothing,
    /// A part of a cell: a value with items, an item of one, or bytes of a long content.
    Part,
    /// A whole cell.
    Cell { column: u32, cell: CellRef<'a> },
}

/// What an event has of a page's cells.
#[inline(always)]
pub(crate) fn found_in<'a>(event: &'a Event<'a>) -> Found<'a> {
    match *event {
        Event::Leaf {
            column,
            level,
            ref scalar,
            ..
        } => at_level(column, level, CellRef::Holds(scalar)),
        Event::Null { column, level, .. } => at_level(column, level, CellRef::Null),
        Event::Empty { column, level, .. } => at_level(column, level, CellRef::Empty),
        Event::Enter { .. } | Event::Leave { .. } | Event::Part { .. } => Found::Part,
        Event::Frame(_)
        | Event::Byte { .. }
        | Event::Short { .. }
        | Event::Int { .. }
        | Event::Long { .. }
        | Event::Uuid { .. }
        | Event::Count { .. }
        | Event::Text { .. }
        | Event::Bytes { .. }
        | Event::Bound { .. }
        | Event::Inet { .. }
        | Event::TypeNode(_)
        | Event::End { .. } => Found::Nothing,
    }
}

/// A value at a level, which is a cell where no value is around it.
#[inline(always)]
fn at_level<'a>(column: u32, level: u32, cell: CellRef<'a>) -> Found<'a> {
    if level == 0 {
        Found::Cell { column, cell }
    } else {
        Found::Part
    }
}
