// Written by dist/erase from crates/cqlp_decode/src/item_loop.rt.
//! The items of cells, handed straight to a sink.
//!
//! The loop takes what has no content, and scalars, while each lies whole in the input. It leaves all else to
//! `Decoder::next`, which alone decides it: a cut, a part, and each refusal. It may, since it is proved to hand out
//! what the reading of the bytes says, and to be where that does; and it reads by the functions by which `next`
//! does, so that no rule is here alone.

use crate::cqlp_decode::leaf::{OTHERS, hand_kind, hand_leaf};
use crate::cqlp_decode::list_loop::is_counted;
use crate::cqlp_decode::page::{CellCursor, page_table};
use crate::cqlp_decode::page_loop::{Handed, front_of};
use crate::cqlp_decode::parts::Parts;
use crate::cqlp_decode::progress::{StreamProgress, StreamStage};
use crate::cqlp_decode::step::FaultAfter;
use crate::cqlp_cell::{BareItem, BarePart, DueItem, Level};
use crate::cqlp_grammar::{Event, Sink, SinkFault};
use crate::cqlp_kind::Kind;

/// The beginning of the first collection that the loop over cells enters.
pub(crate) const FIRST_ENTRY: usize = 0;

/// The beginning of one that follows.
pub(crate) const NEXT_ENTRY: usize = 1;

/// The end of each.
pub(crate) const LIST_END: usize = 2;

/// A part between the items of a cell.
pub(crate) const AMONG_ITEMS: usize = 3;

/// A part of a cell that has no content, and whether the cell is over.
#[derive(Clone, Copy)]
pub struct PartTaken {
    pub item: BareItem,
    pub over: bool,
}

/// How many bytes the items take that were handed out, and whether the sink failed at the last of them.
#[derive(Clone, Copy)]
pub struct ItemsHanded {
    pub used: usize,
    pub failed: bool,
}

/// Puts a level where a loop is in its value, before these of the bytes within that, and says what was handed out of
/// them, and whether the sink failed there.
#[inline(always)]
pub(crate) fn stop_at(
    level: &mut Level,
    here: Level,
    rest: &[u8],
    within: &[u8],
    failed: bool,
) -> ItemsHanded {
    *level = here;
    let used = within.len() - rest.len();
    ItemsHanded { used, failed }
}

/// The item that is due, where no more than these bytes are left of the input and of the value around it: then one
/// comparison sees to both.
#[inline(always)]
pub(crate) fn due_in(rest: &[u8], due: DueItem) -> DueItem {
    DueItem {
        room: rest.len() as u64,
        ..due
    }
}

/// Hands the items of cells to the sink, as far as the loop takes them, and answers how many bytes of the input they
/// take. It begins cells that have fields, and those that have a count if `counted` says so.
pub(crate) fn take_items<S: Sink>(
    progress: &mut StreamProgress,
    parts: &mut Parts,
    counted: bool,
    input: &[u8],
    sink: &mut S,
) -> Result<usize, FaultAfter> {
    if parts.partial.held() > 0 || progress.refusal.is_some() {
        return Ok(0);
    }
    let Some(first) = progress.enter_cell(parts, counted) else {
        return Ok(0);
    };
    let mut page = first;
    let mut used = 0;
    loop {
        let handed = progress.hand_items(parts, page, &input[used..], sink);
        used += handed.used;
        if handed.failed {
            return Err(FaultAfter { used });
        }
        let Some(taken) = progress.take_part(parts, page, &input[used..]) else {
            return Ok(used);
        };
        match hand_part::<AMONG_ITEMS, S>(page, taken.item, sink) {
            Ok(()) => used += taken.item.used,
            Err(SinkFault) => {
                let used = used + taken.item.used;
                return Err(FaultAfter { used });
            }
        }
        if taken.over {
            let Some(following) = progress.enter_cell(parts, counted) else {
                return Ok(used);
            };
            page = following;
        }
    }
}

/// Hands a part without a content to the sink. Each place that calls it has a function of its own, for the same reason as a
/// busy loop has of `hand_leaf`.
#[inline(always)]
pub(crate) fn hand_part<const PLACE: usize, S: Sink>(
    page: CellCursor,
    item: BareItem,
    sink: &mut S,
) -> Result<(), SinkFault> {
    let CellCursor { row, column, .. } = page;
    let at = item.at;
    match item.part {
        BarePart::Null { level } => sink.take(at, &Event::Null { row, column, level }),
        BarePart::Empty { level } => sink.take(at, &Event::Empty { row, column, level }),
        BarePart::Leave { level, items } => sink.take(at, &Event::Leave { level, items }),
        BarePart::Enter { level, kind, items } => sink.take(
            at,
            &Event::Enter {
                row,
                column,
                level,
                kind,
                items,
            },
        ),
    }
}

impl StreamProgress {
    /// The cell that is under way. One that is due begins, if its values have items; one that has a count only if
    /// `counted` says so.
    #[inline(always)]
    fn enter_cell(
        &mut self,
        parts: &mut Parts,
        counted: bool,
    ) -> Option<CellCursor> {
        match self.stage {
            StreamStage::InCell(page) => Some(page),
            StreamStage::BeforeCell(page) => {
                let table = page_table(page.columns, &parts.table, &parts.given);
                let kind = page.kind(table);
                if kind.is_scalar() || (is_counted(kind) && !counted) {
                    return None;
                }
                self.begin_cell(page, &mut parts.cells);
                Some(page)
            }
            StreamStage::Header
            | StreamStage::Field(_)
            | StreamStage::BeforeType
            | StreamStage::InType
            | StreamStage::Extra => None,
        }
    }

    /// Hands the items of the innermost value to the sink, as long as each is a scalar, all whose bytes lie in the input.
    #[inline(always)]
    fn hand_items<S: Sink>(
        &self,
        parts: &mut Parts,
        page: CellCursor,
        input: &[u8],
        sink: &mut S,
    ) -> ItemsHanded {
        let Some(first) = parts.cells.level() else {
            return ItemsHanded {
                used: 0,
                failed: false,
            };
        };
        let mut level = first;
        let handed = self.hand_inside::<OTHERS, S>(parts, &mut level, page, input, sink);
        parts.cells.set_level(level);
        handed
    }

    /// The same of the innermost value in the caller's hands.
    #[inline(always)]
    pub(crate) fn hand_inside<const LOOP: usize, S: Sink>(
        &self,
        parts: &Parts,
        level: &mut Level,
        page: CellCursor,
        input: &[u8],
        sink: &mut S,
    ) -> ItemsHanded {
        let table = page_table(page.columns, &parts.table, &parts.given);
        if !level.is_list() {
            return self.hand_scalars(parts, level, page, input, sink);
        }
        let Some(due) = level.due_item(table) else {
            return ItemsHanded {
                used: 0,
                failed: false,
            };
        };
        self.hand_list::<LOOP, S>(parts, due.kind, level, page, input, sink)
    }

    /// The same of any value, whose items may be of many kinds.
    #[inline(always)]
    fn hand_scalars<S: Sink>(
        &self,
        parts: &Parts,
        level: &mut Level,
        page: CellCursor,
        input: &[u8],
        sink: &mut S,
    ) -> ItemsHanded {
        let table = page_table(page.columns, &parts.table, &parts.given);
        let limits = self.limits;
        let mut here = *level;
        let Some(first) = here.due_item(table) else {
            return stop_at(level, here, input, input, false);
        };
        let within = front_of(input, first.room);
        let mut rest = within;
        'scalars: loop {
            let Some(due) = here.due_item(table) else {
                break 'scalars;
            };
            match hand_leaf::<OTHERS, S>(&limits, due_in(rest, due), page, rest, sink) {
                Handed::Left => break 'scalars,
                Handed::Taken(taken) => {
                    here.pass(taken, table);
                    rest = &rest[taken..];
                }
                Handed::Fault(taken) => {
                    here.pass(taken, table);
                    return stop_at(level, here, &rest[taken..], within, true);
                }
            }
        }
        stop_at(level, here, rest, within, false)
    }

    /// The same of a list or a set, whose items are of this kind.
    #[inline(always)]
    fn hand_list<const LOOP: usize, S: Sink>(
        &self,
        parts: &Parts,
        kind: Kind,
        level: &mut Level,
        page: CellCursor,
        input: &[u8],
        sink: &mut S,
    ) -> ItemsHanded {
        // An arm for each kind, so that each has a loop of its own.
        match kind {
            Kind::Int => self.hand_elements(parts, Kind::Int, level, page, input, sink),
            Kind::Bigint => self.hand_elements(parts, Kind::Bigint, level, page, input, sink),
            Kind::Varchar => self.hand_elements(parts, Kind::Varchar, level, page, input, sink),
            Kind::Boolean => self.hand_elements(parts, Kind::Boolean, level, page, input, sink),
            Kind::Ascii => self.hand_elements(parts, Kind::Ascii, level, page, input, sink),
            Kind::Blob => self.hand_elements(parts, Kind::Blob, level, page, input, sink),
            Kind::Counter => self.hand_elements(parts, Kind::Counter, level, page, input, sink),
            Kind::Custom => self.hand_elements(parts, Kind::Custom, level, page, input, sink),
            Kind::Date => self.hand_elements(parts, Kind::Date, level, page, input, sink),
            Kind::Decimal => self.hand_elements(parts, Kind::Decimal, level, page, input, sink),
            Kind::Double => self.hand_elements(parts, Kind::Double, level, page, input, sink),
            Kind::Float => self.hand_elements(parts, Kind::Float, level, page, input, sink),
            Kind::Inet => self.hand_elements(parts, Kind::Inet, level, page, input, sink),
            Kind::Raw => self.hand_elements(parts, Kind::Raw, level, page, input, sink),
            Kind::Smallint => self.hand_elements(parts, Kind::Smallint, level, page, input, sink),
            Kind::Time => self.hand_elements(parts, Kind::Time, level, page, input, sink),
            Kind::Timestamp => self.hand_elements(parts, Kind::Timestamp, level, page, input, sink),
            Kind::Timeuuid => self.hand_elements(parts, Kind::Timeuuid, level, page, input, sink),
            Kind::Tinyint => self.hand_elements(parts, Kind::Tinyint, level, page, input, sink),
            Kind::Uuid => self.hand_elements(parts, Kind::Uuid, level, page, input, sink),
            Kind::Varint => self.hand_elements(parts, Kind::Varint, level, page, input, sink),
            Kind::List | Kind::Map | Kind::Set | Kind::Udt | Kind::Tuple => ItemsHanded {
                used: 0,
                failed: false,
            },
        }
    }

    /// Hands the items of a list or a set of scalars of this kind to the sink, as long as all bytes of each lie in the input.
    #[inline(always)]
    fn hand_elements<S: Sink>(
        &self,
        parts: &Parts,
        kind: Kind,
        level: &mut Level,
        page: CellCursor,
        input: &[u8],
        sink: &mut S,
    ) -> ItemsHanded {
        let limits = self.limits;
        let mut here = *level;
        let Some(first) = here.due_element(kind) else {
            return stop_at(level, here, input, input, false);
        };
        let within = front_of(input, first.room);
        let mut rest = within;
        'elements: loop {
            let Some(due) = here.due_element(kind) else {
                break 'elements;
            };
            match hand_kind(&limits, kind, due_in(rest, due), page, rest, sink) {
                Handed::Left => break 'elements,
                Handed::Taken(taken) => {
                    here.pass_element(taken);
                    rest = &rest[taken..];
                }
                Handed::Fault(taken) => {
                    here.pass_element(taken);
                    return stop_at(level, here, &rest[taken..], within, true);
                }
            }
        }
        stop_at(level, here, rest, within, false)
    }

    /// Takes what is next of the cell that is under way, where it has no content and all its bytes lie in the input.
    #[inline(always)]
    fn take_part(
        &mut self,
        parts: &mut Parts,
        page: CellCursor,
        input: &[u8],
    ) -> Option<PartTaken> {
        let table = page_table(page.columns, &parts.table, &parts.given);
        let Some(item) = parts.cells.take_bare(table, input) else {
            return None;
        };
        let over = parts.cells.done();
        if over {
            self.end_cell(page, &mut parts.cells, table);
        }
        Some(PartTaken { item, over })
    }
}
