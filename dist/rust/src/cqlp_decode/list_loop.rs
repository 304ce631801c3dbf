// Written by dist/erase from crates/cqlp_decode/src/list_loop.rt.
//! The cells of a page that are lists, sets or maps, handed straight to a sink.
//!
//! A cell is taken in one step while all its bytes lie in the input and its items are scalars: the value that is open stays
//! in the loop's hands. What is elsewhere is left, with the reading where it would be: its items to the loop over
//! the items of cells, and all else to `Decoder::next`.

use crate::cqlp_decode::item_loop::{
    FIRST_ENTRY, ItemsHanded, LIST_END, NEXT_ENTRY, due_in, hand_part, stop_at,
};
use crate::cqlp_decode::leaf::{LISTS, OTHERS, TEXT_KEYS, VALUES_OF_TEXTS, hand_leaf};
use crate::cqlp_decode::page::{CellCursor, page_table};
use crate::cqlp_decode::page_loop::{Handed, front_of};
use crate::cqlp_decode::parts::Parts;
use crate::cqlp_decode::progress::{StreamProgress, StreamStage};
use crate::cqlp_decode::step::FaultAfter;
use crate::cqlp_cell::{BareItem, Entered, Level, PairKinds};
use crate::cqlp_grammar::{Sink, SinkFault};
use crate::cqlp_kind::Kind;
use crate::cqlp_note::Asked;

/// Hands the cells that are due to the sink, as far as each is a list, a set or a map of scalars and lies in the input, and
/// answers how many bytes of the input they take.
#[inline(never)]
pub(crate) fn take_lists<S: Sink>(
    progress: &mut StreamProgress,
    parts: &mut Parts,
    input: &[u8],
    sink: &mut S,
) -> Result<usize, FaultAfter> {
    if parts.partial.held() > 0 || progress.refusal.is_some() {
        return Ok(0);
    }
    let Some(page) = progress.begin_list(parts) else {
        return Ok(0);
    };
    let Some(entered) = progress.enter_list(parts, page, input) else {
        return Ok(0);
    };
    let used = entered.item.used;
    match hand_part::<FIRST_ENTRY, S>(page, entered.item, sink) {
        Ok(()) => {}
        Err(SinkFault) => return Err(FaultAfter { used }),
    }
    match progress.hand_lists(parts, page, entered.level, &input[used..], sink) {
        Ok(more) => Ok(used + more),
        Err(fault) => {
            let used = used + fault.used;
            Err(FaultAfter { used })
        }
    }
}

/// The next cell of a page, and the beginning of the list, the set or the map that it is.
#[derive(Clone, Copy)]
struct NextList {
    page: CellCursor,
    entered: Entered,
}

/// Whether a value of this kind has a count before its items.
#[inline(always)]
pub(crate) fn is_counted(kind: Kind) -> bool {
    matches!(kind, Kind::List | Kind::Set | Kind::Map)
}

/// Hands the key of a map that is next to the sink, if it is a scalar of this kind and lies in these bytes, which reach no
/// further than the map, and goes on after it.
#[inline(always)]
fn hand_key<const LOOP: usize, S: Sink>(
    limits: &Asked,
    kind: Kind,
    here: &mut Level,
    page: CellCursor,
    rest: &[u8],
    sink: &mut S,
) -> Handed {
    let due = due_in(rest, here.due_in_pair(kind));
    match hand_leaf::<LOOP, S>(limits, due, page, rest, sink) {
        Handed::Left => Handed::Left,
        Handed::Taken(taken) => {
            here.pass_key(taken);
            Handed::Taken(taken)
        }
        Handed::Fault(taken) => {
            here.pass_key(taken);
            Handed::Fault(taken)
        }
    }
}

/// The same of the value that a key has.
#[inline(always)]
fn hand_value<const LOOP: usize, S: Sink>(
    limits: &Asked,
    kind: Kind,
    here: &mut Level,
    page: CellCursor,
    rest: &[u8],
    sink: &mut S,
) -> Handed {
    let due = due_in(rest, here.due_in_pair(kind));
    match hand_leaf::<LOOP, S>(limits, due, page, rest, sink) {
        Handed::Left => Handed::Left,
        Handed::Taken(taken) => {
            here.pass_value(taken);
            Handed::Taken(taken)
        }
        Handed::Fault(taken) => {
            here.pass_value(taken);
            Handed::Fault(taken)
        }
    }
}

impl StreamProgress {
    /// Begins the cell that is due, if it is a list, a set or a map.
    #[inline(always)]
    fn begin_list(&mut self, parts: &mut Parts) -> Option<CellCursor> {
        let StreamStage::BeforeCell(page) = self.stage else {
            return None;
        };
        let table = page_table(page.columns, &parts.table, &parts.given);
        if !is_counted(page.kind(table)) {
            return None;
        }
        self.begin_cell(page, &mut parts.cells);
        Some(page)
    }

    /// Goes on inside the list, the set or the map that is next of the cell under way, where its length and its count are
    /// lawful and lie in the input.
    #[inline(always)]
    fn enter_list(
        &self,
        parts: &mut Parts,
        page: CellCursor,
        input: &[u8],
    ) -> Option<Entered> {
        let table = page_table(page.columns, &parts.table, &parts.given);
        let Some(entered) = parts.cells.enter(table, input) else {
            return None;
        };
        Some(entered)
    }

    /// Hands the items of the list, the set or the map that a level is to the sink, as long as each is a scalar, all whose
    /// bytes lie in the input.
    #[inline(always)]
    fn hand_counted<S: Sink>(
        &self,
        parts: &Parts,
        level: &mut Level,
        page: CellCursor,
        input: &[u8],
        sink: &mut S,
    ) -> ItemsHanded {
        let table = page_table(page.columns, &parts.table, &parts.given);
        let Some(kinds) = level.pair_kinds(table) else {
            return self.hand_inside::<LISTS, S>(parts, level, page, input, sink);
        };
        // Most keys are texts, so that maps of these have a loop of their own.
        if kinds.key == Kind::Varchar {
            let value = kinds.value;
            let kinds = PairKinds {
                key: Kind::Varchar,
                value,
            };
            return self.hand_pairs::<TEXT_KEYS, VALUES_OF_TEXTS, S>(
                parts, kinds, level, page, input, sink,
            );
        }
        self.hand_pairs::<OTHERS, OTHERS, S>(parts, kinds, level, page, input, sink)
    }

    /// The same of a map, whose keys and values are of these kinds.
    #[inline(always)]
    fn hand_pairs<const KEYS: usize, const VALUES: usize, S: Sink>(
        &self,
        parts: &Parts,
        kinds: PairKinds,
        level: &mut Level,
        page: CellCursor,
        input: &[u8],
        sink: &mut S,
    ) -> ItemsHanded {
        let limits = self.limits;
        let mut here = *level;
        if !here.has_key() {
            return stop_at(level, here, input, input, false);
        }
        let within = front_of(input, here.due_in_pair(kinds.key).room);
        let mut rest = within;
        'pairs: loop {
            if !here.has_key() {
                break 'pairs;
            }
            match hand_key::<KEYS, S>(&limits, kinds.key, &mut here, page, rest, sink) {
                Handed::Left => break 'pairs,
                Handed::Taken(taken) => rest = &rest[taken..],
                Handed::Fault(taken) => return stop_at(level, here, &rest[taken..], within, true),
            }
            match hand_value::<VALUES, S>(&limits, kinds.value, &mut here, page, rest, sink) {
                Handed::Left => break 'pairs,
                Handed::Taken(taken) => rest = &rest[taken..],
                Handed::Fault(taken) => return stop_at(level, here, &rest[taken..], within, true),
            }
        }
        stop_at(level, here, rest, within, false)
    }

    /// Hands the items of a list, a set or a map in whose level the reading is to the sink, its end, and the cells after
    /// it that are like it. Between two of them the reader and what is read now stay as they are, but for the cursor.
    #[inline(always)]
    fn hand_lists<S: Sink>(
        &mut self,
        parts: &mut Parts,
        first: CellCursor,
        start: Level,
        input: &[u8],
        sink: &mut S,
    ) -> Result<usize, FaultAfter> {
        let mut page = first;
        let mut level = start;
        let mut used = 0;
        loop {
            let handed = self.hand_counted(parts, &mut level, page, &input[used..], sink);
            used += handed.used;
            if handed.failed {
                parts.cells.set_level(level);
                return Err(FaultAfter { used });
            }
            let Some(end) = level.ending() else {
                parts.cells.set_level(level);
                return Ok(used);
            };
            used += end.used;
            match hand_part::<LIST_END, S>(page, end, sink) {
                Ok(()) => {}
                Err(SinkFault) => {
                    self.end_list(parts, page, level, end);
                    return Err(FaultAfter { used });
                }
            }
            let Some(next) = self.next_list(parts, page, level, end, &input[used..]) else {
                self.end_list(parts, page, level, end);
                return Ok(used);
            };
            page = next.page;
            level = next.entered.level;
            used += next.entered.item.used;
            match hand_part::<NEXT_ENTRY, S>(page, next.entered.item, sink) {
                Ok(()) => {}
                Err(SinkFault) => {
                    parts.cells.set_level(level);
                    return Err(FaultAfter { used });
                }
            }
        }
    }

    /// Leaves the cell, at whose end a level is.
    #[cold]
    #[inline(never)]
    fn end_list(
        &mut self,
        parts: &mut Parts,
        page: CellCursor,
        level: Level,
        end: BareItem,
    )
    {
        parts.cells.set_level(level);
        let table = page_table(page.columns, &parts.table, &parts.given);
        self.end_cell(page, &mut parts.cells, table);
    }

    /// Goes on from a cell, at whose end a level is, to the next, if that is a list, a set or a map whose length and count
    /// are lawful and lie in the input.
    #[inline(always)]
    fn next_list(
        &mut self,
        parts: &Parts,
        page: CellCursor,
        level: Level,
        end: BareItem,
        input: &[u8],
    ) -> Option<NextList> {
        let table = page_table(page.columns, &parts.table, &parts.given);
        let Some(following) = page.next(table) else {
            return None;
        };
        let Some(node) = following.node() else {
            return None;
        };
        let Some(entered) = parts.cells.enter_next(level, node, table, input) else {
            return None;
        };
        self.stage = StreamStage::InCell(following);
        Some(NextList {
            page: following,
            entered,
        })
    }
}
