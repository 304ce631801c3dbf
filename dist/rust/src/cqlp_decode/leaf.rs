// Written by dist/erase from crates/cqlp_decode/src/leaf.rt.
//! A scalar, handed straight to a sink.
//!
//! The one dispatch over the kinds of scalars for the loops over cells and over items: an arm for each kind, so that each
//! has code of its own, in which the size and the content of that kind alone are looked at.

use crate::cqlp_decode::page::CellCursor;
use crate::cqlp_decode::page_loop::Handed;
use crate::cqlp_cell::{DueItem, front_scalar};
use crate::cqlp_grammar::{Event, Sink, SinkFault};
use crate::cqlp_kind::Kind;
use crate::cqlp_kind::content::read_array;
use crate::cqlp_note::Asked;

/// The loop over the cells of a page whose types are known and whose limit on cells admits each content of a fixed length.
pub const TYPED_CELLS: usize = 0;

/// The keys of a map that are texts.
pub const TEXT_KEYS: usize = 1;

/// The values of a map whose keys are texts.
pub const VALUES_OF_TEXTS: usize = 2;

/// The items of lists and sets, in the loop over cells that are collections.
pub const LISTS: usize = 3;

/// All other loops.
pub const OTHERS: usize = 4;

/// Hands the item at the front of the input to the sink, if it is a scalar and all its bytes are there. A busy loop has a
/// function of its own: the compiler of the proved program inlines a long one only where it is called from one place.
#[inline(always)]
pub fn hand_leaf<const LOOP: usize, S: Sink>(
    limits: &Asked,
    due: DueItem,
    page: CellCursor,
    input: &[u8],
    sink: &mut S,
) -> Handed {
    match due.kind {
        Kind::Int => hand_kind(limits, Kind::Int, due, page, input, sink),
        Kind::Bigint => hand_kind(limits, Kind::Bigint, due, page, input, sink),
        Kind::Varchar => hand_kind(limits, Kind::Varchar, due, page, input, sink),
        Kind::Boolean => hand_kind(limits, Kind::Boolean, due, page, input, sink),
        Kind::Ascii => hand_kind(limits, Kind::Ascii, due, page, input, sink),
        Kind::Blob => hand_kind(limits, Kind::Blob, due, page, input, sink),
        Kind::Counter => hand_kind(limits, Kind::Counter, due, page, input, sink),
        Kind::Custom => hand_kind(limits, Kind::Custom, due, page, input, sink),
        Kind::Date => hand_kind(limits, Kind::Date, due, page, input, sink),
        Kind::Decimal => hand_kind(limits, Kind::Decimal, due, page, input, sink),
        Kind::Double => hand_kind(limits, Kind::Double, due, page, input, sink),
        Kind::Float => hand_kind(limits, Kind::Float, due, page, input, sink),
        Kind::Inet => hand_kind(limits, Kind::Inet, due, page, input, sink),
        Kind::Raw => hand_kind(limits, Kind::Raw, due, page, input, sink),
        Kind::Smallint => hand_kind(limits, Kind::Smallint, due, page, input, sink),
        Kind::Time => hand_kind(limits, Kind::Time, due, page, input, sink),
        Kind::Timestamp => hand_kind(limits, Kind::Timestamp, due, page, input, sink),
        Kind::Timeuuid => hand_kind(limits, Kind::Timeuuid, due, page, input, sink),
        Kind::Tinyint => hand_kind(limits, Kind::Tinyint, due, page, input, sink),
        Kind::Uuid => hand_kind(limits, Kind::Uuid, due, page, input, sink),
        Kind::Varint => hand_kind(limits, Kind::Varint, due, page, input, sink),
        Kind::List | Kind::Map | Kind::Set | Kind::Udt | Kind::Tuple => Handed::Left,
    }
}

/// The same of an item of this kind.
#[inline(always)]
pub fn hand_kind<S: Sink>(
    limits: &Asked,
    kind: Kind,
    due: DueItem,
    page: CellCursor,
    input: &[u8],
    sink: &mut S,
) -> Handed {
    if !may_begin(kind, due.room, input) {
        return Handed::Left;
    }
    let Some(front) = front_scalar(limits, kind, due.room, input) else {
        return Handed::Left;
    };
    let CellCursor { row, column, .. } = page;
    let DueItem { at, level, .. } = due;
    let scalar = front.scalar;
    let event = Event::Leaf {
        row,
        column,
        level,
        scalar,
    };
    match sink.take(at, &event) {
        Ok(()) => Handed::Taken(front.used),
        Err(SinkFault) => Handed::Fault(front.used),
    }
}

/// Whether a scalar of this kind may be at the front of the input, in a container with room for this many bytes.
///
/// Of a kind whose contents all have one length that length is compared once, and is known in what comes after: then
/// `front_scalar`, which alone decides, has nothing left to ask of it.
#[inline]
fn may_begin(kind: Kind, room: u64, input: &[u8]) -> bool {
    let Some(width) = width_of(kind) else {
        return true;
    };
    input.len() >= 4 + width as usize
        && room >= 4 + u64::from(width)
        && u32::from_be_bytes(read_array(input)) == width
}

/// How many bytes a content of this kind has, where each has as many.
#[inline]
fn width_of(kind: Kind) -> Option<u32> {
    match kind {
        Kind::Bigint | Kind::Counter | Kind::Double | Kind::Time | Kind::Timestamp => Some(8),
        Kind::Date | Kind::Float | Kind::Int => Some(4),
        Kind::Smallint => Some(2),
        Kind::Boolean | Kind::Tinyint => Some(1),
        Kind::Timeuuid | Kind::Uuid => Some(16),
        _ => None,
    }
}
