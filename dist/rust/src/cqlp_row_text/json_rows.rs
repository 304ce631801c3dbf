// Written by dist/erase from crates/cqlp_row_text/src/json_rows.rt.
//! Rows as JSON.

use crate::cqlp_row_text::place::TablePlace;
use crate::cqlp_row_text::shown::{Content, Shown, put_shown};
use crate::cqlp_grammar::{Event, SinkFault};
use crate::cqlp_kind::{Kind, Scalar};
use crate::cqlp_note::{Field, Target};
use crate::cqlp_text::{PagePlace, Pen, TextWriter, Turn, WrittenValue};

/// Appends what is written of an event of a page as JSON, which nothing is of an event of another frame, and goes to the
/// place after it, also at a fault, which is the target's own.
///
/// # Errors
///
/// The fault of the target.
#[inline]
pub fn json_part<W: Target>(
    place: &mut TablePlace,
    event: &Event<'_>,
    target: &mut W,
) -> Result<(), SinkFault> {
    let mut writer = TextWriter::over(target);
    match put_json_part(place, event, &mut writer) {
        Ok(()) => {
            let passed = writer.flush();
            let _ = writer.into_target();
            passed
        }
        Err(fault) => {
            let _ = writer.into_target();
            Err(fault)
        }
    }
}

/// Has a writer take what is written of an event of a page as JSON, and goes to the place after it, also at a fault.
#[inline]
pub fn put_json_part<P: Pen>(
    place: &mut TablePlace,
    event: &Event<'_>,
    writer: &mut TextWriter<P>,
) -> Result<(), SinkFault> {
    if !place.page.is_page() {
        place.pass(event);
        return Ok(());
    }
    let written = put_shown(&shown_of(place, event), writer);
    place.pass(event);
    written
}

/// What ends the line under way on a page that is cut at this place, which is no JSON then. Nothing where there is no page.
pub fn json_break(place: &TablePlace) -> &'static str {
    if place.page.is_page() { "\n" } else { "" }
}

/// What is written of an event on a page.
#[inline]
fn shown_of<'a>(place: &TablePlace, event: &Event<'a>) -> Shown<'a> {
    match *event {
        Event::Text { field, text } => shown_name(place, field, text),
        Event::Count { field, count } => shown_count(field, count),
        Event::Leaf { column, scalar, .. } => shown_value(place, column, Content::Json(scalar)),
        Event::Null { column, .. } => shown_word(place, column, "null"),
        Event::Empty { column, .. } => shown_word(place, column, "\"\""),
        Event::Enter { column, .. } => shown_opening(place, column),
        Event::Leave { .. } => shown_closing(place),
        Event::Part {
            column,
            offset,
            bytes,
            last,
            ..
        } => shown_part(place, column, offset, bytes, last),
        _ => Shown::NOTHING,
    }
}

fn shown_name<'a>(place: &TablePlace, field: Field, name: &'a str) -> Shown<'a> {
    match field {
        Field::ColumnName => Shown {
            before: if place.is_named { "," } else { "" },
            content: Content::Json(Scalar::Varchar(name)),
            ..Shown::NOTHING
        },
        _ => Shown::NOTHING,
    }
}

fn shown_count(field: Field, count: u32) -> Shown<'static> {
    let content = Content::Number(u64::from(count));
    match field {
        Field::Columns => Shown {
            before: "{\"columns\":",
            content,
            after: ",\"names\":[",
            ..Shown::NOTHING
        },
        Field::Rows => Shown {
            before: "],\"rows\":",
            content,
            after: "}\n",
            ..Shown::NOTHING
        },
        _ => Shown::NOTHING,
    }
}

/// A cell or an item that has no items.
#[inline]
fn shown_value<'a>(place: &TablePlace, column: u32, content: Content<'a>) -> Shown<'a> {
    Shown {
        before: before(column, place.page.innermost()),
        content,
        after: after(
            place.page.is_last(column),
            innermost_after_item(&place.page),
        ),
        ..Shown::NOTHING
    }
}

/// A word in place of a value.
#[inline]
fn shown_word(place: &TablePlace, column: u32, word: &'static str) -> Shown<'static> {
    Shown {
        before: before(column, place.page.innermost()),
        begin: word,
        after: after(
            place.page.is_last(column),
            innermost_after_item(&place.page),
        ),
        ..Shown::NOTHING
    }
}

fn shown_opening(place: &TablePlace, column: u32) -> Shown<'static> {
    Shown {
        before: before(column, place.page.innermost()),
        begin: "[",
        ..Shown::NOTHING
    }
}

fn shown_closing(place: &TablePlace) -> Shown<'static> {
    match place.page.innermost() {
        None => Shown::NOTHING,
        Some(_) => Shown {
            end: "]",
            after: after(place.page.is_last(place.page.column()), place.page.outer()),
            ..Shown::NOTHING
        },
    }
}

/// The innermost open value as it is after one more item.
#[inline(always)]
fn innermost_after_item(place: &PagePlace) -> Option<WrittenValue> {
    match place.innermost() {
        Some(open) => Some(open.after_item()),
        None => None,
    }
}

/// A part of a long content, which is between quotes.
fn shown_part<'a>(
    place: &TablePlace,
    column: u32,
    offset: u32,
    bytes: &'a [u8],
    last: bool,
) -> Shown<'a> {
    let (before, begin) = if offset == 0 {
        (before(column, place.page.innermost()), "\"")
    } else {
        ("", "")
    };
    let (end, after) = if last {
        (
            "\"",
            after(
                place.page.is_last(column),
                innermost_after_item(&place.page),
            ),
        )
    } else {
        ("", "")
    };
    Shown {
        before,
        begin,
        content: Content::Hex(bytes),
        end,
        after,
    }
}

/// What comes before a cell of this column, or before an item of the open value.
#[inline(always)]
fn before(column: u32, around: Option<WrittenValue>) -> &'static str {
    match around {
        None if column == 0 => "[",
        None => ",",
        Some(open) => before_item(open.kind, open.turn),
    }
}

#[inline(always)]
fn before_item(kind: Kind, turn: Turn) -> &'static str {
    match (kind, turn) {
        (Kind::Map, Turn::First) => "[",
        (Kind::Map, Turn::Another) => ",[",
        (_, Turn::First) => "",
        _ => ",",
    }
}

/// What comes after a cell, which may be the last of its row, or after an item of the open value.
#[inline(always)]
fn after(is_last: bool, around: Option<WrittenValue>) -> &'static str {
    match around {
        None if is_last => "]\n",
        None => "",
        Some(open) => after_item(open.kind, open.turn),
    }
}

#[inline(always)]
fn after_item(kind: Kind, turn: Turn) -> &'static str {
    match (kind, turn) {
        (Kind::Map, Turn::Another) => "]",
        _ => "",
    }
}
