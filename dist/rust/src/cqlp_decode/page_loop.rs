// Written by dist/erase from crates/cqlp_decode/src/page_loop.rt.
//! The cells of a page, handed straight to a sink.
//!
//! The loop takes nulls, empty values and scalars, while each lies whole in the input. It leaves all else to
//! `Decoder::next`, which alone decides it: a value with items, a cut, a part, and each refusal. It may, since it is
//! proved to hand out what the reading of the bytes says, and to be where that does; and it reads a scalar by the
//! very function by which `next` does, so that no rule is here alone.

use crate::cqlp_decode::leaf::{OTHERS, TYPED_CELLS, hand_leaf};
use crate::cqlp_decode::page::{CellCursor, Columns, page_table};
use crate::cqlp_decode::parts::Parts;
use crate::cqlp_decode::progress::{StreamProgress, StreamStage};
use crate::cqlp_decode::step::FaultAfter;
use crate::cqlp_cell::DueItem;
use crate::cqlp_grammar::{Event, Sink, SinkFault};
use crate::cqlp_kind::Kind;
use crate::cqlp_kind::content::read_array;
use crate::cqlp_note::Asked;

/// The most bytes that a content has of a kind whose contents all have one length: those of a uuid.
const LONGEST_FIXED: u32 = 16;

/// What became of the cell that is due.
#[derive(Clone, Copy)]
pub enum Handed {
    /// Nothing: it is left.
    Left,
    /// It was handed out, and takes this many bytes.
    Taken(usize),
    /// The same, but the sink failed.
    Fault(usize),
}

/// A value without a content.
#[derive(Clone, Copy)]
pub enum Bare {
    Null,
    Empty,
}

/// Hands the cells that are due to the sink, as far as the loop takes them, and answers how many bytes of the input
/// they take.
#[inline(never)]
pub(crate) fn take_cells<S: Sink>(
    progress: &mut StreamProgress,
    parts: &Parts,
    input: &[u8],
    sink: &mut S,
) -> Result<usize, FaultAfter> {
    let StreamStage::BeforeCell(due) = progress.stage else {
        return Ok(0);
    };
    if parts.partial.held() > 0 {
        return Ok(0);
    }
    if let Some(_) = progress.refusal {
        return Ok(0);
    }
    // An arm for each, so that each has a loop of its own: that over columns of unknown types looks at no table, and that
    // where the limit on cells admits each content of a fixed length compares none with it.
    match due.columns {
        Columns::Typed | Columns::Given if progress.limits.cell >= LONGEST_FIXED => {
            take_due::<TYPED_CELLS, S>(progress, parts, due, input, sink)
        }
        Columns::Typed | Columns::Given => {
            take_due::<OTHERS, S>(progress, parts, due, input, sink)
        }
        Columns::Raw(_) => take_due::<OTHERS, S>(progress, parts, due, input, sink),
    }
}

/// The same where this cell is due, nothing was refused and no content is held.
#[inline(always)]
fn take_due<const LOOP: usize, S: Sink>(
    progress: &mut StreamProgress,
    parts: &Parts,
    due: CellCursor,
    input: &[u8],
    sink: &mut S,
) -> Result<usize, FaultAfter> {
    let limits = progress.limits;
    let start = progress.offset;
    let within = front_of(input, progress.stop - start);
    let table = page_table(due.columns, &parts.table, &parts.given);
    let mut page = due;
    let mut used = 0;
    'cells: loop {
        let head = page.head(table);
        let at = start + used as u64;
        match hand_cell::<LOOP, S>(&limits, head.kind, page, at, &within[used..], sink) {
            Handed::Left => break 'cells,
            Handed::Taken(taken) => {
                used += taken;
                if !page.advance(head.span, table) {
                    progress.offset = start + used as u64;
                    progress.expect_next();
                    return Ok(used);
                }
            }
            Handed::Fault(taken) => {
                used += taken;
                progress.offset = start + used as u64;
                progress.after_cell(page, table);
                return Err(FaultAfter { used });
            }
        }
    }
    progress.offset = start + used as u64;
    progress.stage = StreamStage::BeforeCell(page);
    Ok(used)
}

/// The bytes of the input that lie within a room of this many.
#[inline(always)]
pub(crate) fn front_of(input: &[u8], room: u64) -> &[u8] {
    if input.len() as u64 <= room {
        return input;
    }
    &input[..room as usize]
}

/// Hands the cell at the front of the input, which begins at an offset, to the sink, if the loop takes it. Most cells are
/// scalars, so these are asked for first.
#[inline(always)]
fn hand_cell<const LOOP: usize, S: Sink>(
    limits: &Asked,
    kind: Kind,
    page: CellCursor,
    at: u64,
    input: &[u8],
    sink: &mut S,
) -> Handed {
    let level = 0;
    // The input ends with its frame or before: no cell in it is beyond the frame, and one comparison sees to both.
    let room = input.len() as u64;
    let due = DueItem {
        at,
        kind,
        room,
        level,
    };
    match hand_leaf::<LOOP, S>(limits, due, page, input, sink) {
        Handed::Left => hand_bare(room, page, at, input, sink),
        Handed::Taken(used) => Handed::Taken(used),
        Handed::Fault(used) => Handed::Fault(used),
    }
}

/// The same of a cell that is null or empty.
#[inline(always)]
fn hand_bare<S: Sink>(room: u64, page: CellCursor, at: u64, input: &[u8], sink: &mut S) -> Handed {
    let CellCursor { row, column, .. } = page;
    let level = 0;
    match front_bare(room, input) {
        Some(Bare::Null) => hand(at, &Event::Null { row, column, level }, 4, sink),
        Some(Bare::Empty) => hand(at, &Event::Empty { row, column, level }, 4, sink),
        None => Handed::Left,
    }
}

/// Hands an event that takes this many bytes to the sink.
#[inline(always)]
fn hand<S: Sink>(at: u64, event: &Event<'_>, used: usize, sink: &mut S) -> Handed {
    match sink.take(at, event) {
        Ok(()) => Handed::Taken(used),
        Err(SinkFault) => Handed::Fault(used),
    }
}

/// The value without a content at the front of the input, if there is one.
#[inline(always)]
fn front_bare(room: u64, input: &[u8]) -> Option<Bare> {
    if room < 4 || input.len() < 4 {
        return None;
    }
    let len = u32::from_be_bytes(read_array(input));
    if len > i32::MAX as u32 {
        return Some(Bare::Null);
    }
    if len == 0 {
        return Some(Bare::Empty);
    }
    None
}
