// Written by dist/erase from crates/cqlp_bound_values/src/nested_text.rt.
//! Values with items, as cells of `cqlp rows` and of `cqlp rows --json`.

use crate::cqlp_bound_values::column_types::kind_at;
use crate::cqlp_bound_values::field::{behind, is_end};
use crate::cqlp_bound_values::form::Form;
use crate::cqlp_bound_values::item::Item;
use crate::cqlp_bound_values::line_scalar::put_line_scalar;
use crate::cqlp_bound_values::nested::Items;
use crate::cqlp_bound_values::scalars::shown_scalar;
use crate::cqlp_grammar::SinkFault;
use crate::cqlp_json::put_scalar;
use crate::cqlp_kind::{Kind, Scalar};
use crate::cqlp_text::{Pen, TextWriter, Turn, WrittenValue, closing, opening};

/// Takes a content that conforms to a type option in which so many are nested at most, itself counted.
///
/// # Errors
///
/// The fault of the pen.
pub(crate) fn put_typed<P: Pen>(
    writer: &mut TextWriter<P>,
    form: Form,
    depth: u32,
    option: &[u8],
    content: &[u8],
) -> Result<(), SinkFault> {
    if depth == 0 {
        return writer.put(b"");
    }
    let depth = depth - 1;
    let (kind, inner) = (kind_at(option), behind(2, option));
    if kind.is_scalar() {
        return put_scalar_as(writer, form, &shown_scalar(kind, content, true));
    }
    put_nested(
        writer,
        form,
        depth,
        kind,
        &Items::of(depth, kind, inner, content),
    )
}

fn put_nested<P: Pen>(
    writer: &mut TextWriter<P>,
    form: Form,
    depth: u32,
    kind: Kind,
    items: &Items<'_>,
) -> Result<(), SinkFault> {
    writer.put_str(opening_text(form, kind))?;
    put_items(writer, form, depth, items)?;
    writer.put_str(closing_text(form, kind))
}

/// Takes items, up to the last byte.
fn put_items<P: Pen>(
    writer: &mut TextWriter<P>,
    form: Form,
    depth: u32,
    items: &Items<'_>,
) -> Result<(), SinkFault> {
    let mut rest = *items;
    let mut turn = Turn::First;
    while rest.left > 0 {
        if is_end(rest.bytes) {
            return Ok(());
        }
        put_first(writer, form, depth, turn, &rest)?;
        turn = turn_after(rest.kind, turn);
        rest = rest.others(depth);
    }
    Ok(())
}

/// Takes the first of these items, which has this turn, with what comes before and after it.
fn put_first<P: Pen>(
    writer: &mut TextWriter<P>,
    form: Form,
    depth: u32,
    turn: Turn,
    items: &Items<'_>,
) -> Result<(), SinkFault> {
    writer.put_str(before_text(form, items.kind, turn))?;
    put_inner(writer, form, depth, items.option, &items.first())?;
    writer.put_str(after_text(form, items.kind, turn))
}

fn put_inner<P: Pen>(
    writer: &mut TextWriter<P>,
    form: Form,
    depth: u32,
    option: &[u8],
    item: &Item<'_>,
) -> Result<(), SinkFault> {
    match *item {
        Item::Missing => writer.put(b""),
        Item::Null | Item::Unset => writer.put(b"null"),
        Item::Content {
            bytes: [],
            is_whole: _,
        } => writer.put_str(empty_text(form)),
        Item::Content { bytes, is_whole: _ } => put_typed(writer, form, depth, option, bytes),
    }
}

fn put_scalar_as<P: Pen>(
    writer: &mut TextWriter<P>,
    form: Form,
    scalar: &Scalar<'_>,
) -> Result<(), SinkFault> {
    match form {
        Form::Line => put_line_scalar(writer, scalar),
        Form::Json => put_scalar(scalar, writer),
    }
}

fn empty_text(form: Form) -> &'static str {
    match form {
        Form::Line => "empty",
        Form::Json => "\"\"",
    }
}

fn opening_text(form: Form, kind: Kind) -> &'static str {
    match form {
        Form::Line => opening(kind),
        Form::Json => "[",
    }
}

fn closing_text(form: Form, kind: Kind) -> &'static str {
    match form {
        Form::Line => closing(kind),
        Form::Json => "]",
    }
}

fn before_text(form: Form, kind: Kind, turn: Turn) -> &'static str {
    match form {
        Form::Line => separator(turn),
        Form::Json => before_item(kind, turn),
    }
}

fn separator(turn: Turn) -> &'static str {
    match turn {
        Turn::First => "",
        Turn::Paired => ": ",
        Turn::Another => ", ",
    }
}

fn turn_after(kind: Kind, turn: Turn) -> Turn {
    WrittenValue { kind, turn }.after_item().turn
}

/// A pair of a map is an array of its own.
fn before_item(kind: Kind, turn: Turn) -> &'static str {
    match (kind, turn) {
        (Kind::Map, Turn::First) => "[",
        (Kind::Map, Turn::Paired) => ",",
        (Kind::Map, Turn::Another) => ",[",
        (_, Turn::First) => "",
        _ => ",",
    }
}

fn after_text(form: Form, kind: Kind, turn: Turn) -> &'static str {
    match form {
        Form::Line => "",
        Form::Json => after_item(kind, turn_after(kind, turn)),
    }
}

fn after_item(kind: Kind, turn: Turn) -> &'static str {
    match (kind, turn) {
        (Kind::Map, Turn::Another) => "]",
        _ => "",
    }
}
