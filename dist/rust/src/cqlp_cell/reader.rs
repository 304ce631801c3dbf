// Written by dist/erase from crates/cqlp_cell/src/reader.rt.
//! A cell out of pieces of any size.

use crate::cqlp_cell::advance::CellAdvance;
use crate::cqlp_cell::item::CellPush;
use crate::cqlp_cell::level::Level;
use crate::cqlp_cell::open_values::OpenValues;
use crate::cqlp_cell::progress::{Arrived, CellProgress, NextInCell};
use crate::cqlp_cell::whole::{BareItem, Entered};
use crate::cqlp_note::{Asked, Limits, NoMemory, Partial};
use crate::cqlp_type::TypeTable;

/// Reads cells, one at a time, as events. Their contents are read in the caller's `Partial`, and their types are in
/// the caller's table. Section 6 of `native_protocol_v4.spec`.
pub struct CellReader {
    progress: CellProgress,
}

impl CellReader {
    /// With room for the nesting that the limits allow. Parts have at least one byte.
    #[cfg_attr(not(feature = "cli"), inline)]
    pub(crate) fn new(limits: &Limits) -> Result<Self, NoMemory> {
        Self::asked(&Asked::new(limits, false))
    }

    /// The same, where the caller may ask for a lenient reading.
    #[cfg_attr(not(feature = "cli"), inline)]
    pub(crate) fn asked(limits: &Asked) -> Result<Self, NoMemory> {
        Ok(CellReader {
            progress: CellProgress {
                limits: *limits,
                offset: 0,
                stop: 0,
                next: NextInCell::Nothing,
                arrived: Arrived::Nothing,
                open_values: OpenValues::new(limits.depth)?,
            },
        })
    }

    /// Begins a cell of the type at this node, or of none, at an offset in a container that ends at another.
    #[inline(always)]
    pub(crate) fn begin(&mut self, node: Option<u32>, at: u64, end: u64) {
        self.progress.offset = at;
        self.progress.stop = end;
        self.progress.next = NextInCell::Cell(node);
        self.progress.arrived = Arrived::Nothing;
        self.progress.open_values.clear();
    }

    /// Whether a cell is under way and whole, so that the next push says so.
    #[cfg_attr(not(feature = "cli"), inline)]
    #[must_use]
    pub fn done(&self) -> bool {
        matches!(self.progress.next, NextInCell::Items) && self.progress.open_values.len() == 0
    }

    /// How many values are open.
    #[cfg_attr(not(feature = "cli"), inline)]
    #[must_use]
    pub fn levels(&self) -> u32 {
        self.progress.open_values.len()
    }

    /// How many open values its memory has places for: as many as the limits allow, for as long as it lives.
    #[cfg_attr(not(feature = "cli"), inline)]
    #[must_use]
    pub fn capacity(&self) -> usize {
        self.progress.open_values.capacity()
    }

    /// The offset of what is read next.
    #[inline(always)]
    #[must_use]
    pub fn offset(&self) -> u64 {
        let progress = &self.progress;
        progress.offset
    }

    /// Ends the cell that is under way, whole or not, if there is one.
    #[inline(always)]
    pub fn stop(&mut self) {
        self.progress.end();
    }

    /// How many bytes of the stream were used: those before what is read next, and those of it that have come.
    #[cfg_attr(not(feature = "cli"), inline)]
    pub(crate) fn bytes_used(&self, partial: &Partial) -> u64 {
        match self.progress.arrived {
            Arrived::Nothing => self.progress.offset,
            Arrived::Length | Arrived::Later => self.progress.offset + partial.came(),
            Arrived::Scalar(_) | Arrived::Counted(_) | Arrived::First(_) => {
                self.progress.offset + 4 + partial.came()
            }
        }
    }

    /// Takes the next bytes of the cell that is under way, and says where the content of an item lies.
    #[cfg_attr(not(feature = "cli"), inline)]
    pub(crate) fn advance(
        &mut self,
        partial: &mut Partial,
        table: &TypeTable,
        input: &[u8],
    ) -> CellAdvance {
        self.progress.advance(partial, table, input)
    }

    /// A copy of the innermost value that is open, where what is read next is in it and nothing of that has come.
    #[inline(always)]
    #[must_use]
    pub fn level(&self) -> Option<Level> {
        self.progress.level()
    }

    /// Goes on where a level is: it is the innermost value from now on, if one is open.
    #[inline(always)]
    pub fn set_level(&mut self, level: Level) {
        self.progress.set_level(level);
    }

    /// Takes what is next of the cell that is under way, where it has no content, `advance` would hand it out of the
    /// input alone, and all its bytes lie in it; else it does nothing.
    #[inline(always)]
    pub(crate) fn take_bare(&mut self, table: &TypeTable, input: &[u8]) -> Option<BareItem> {
        self.progress.take_bare(table, input)
    }

    /// Goes on inside the list, the set or the map that is next of the cell under way, where `advance` would do so out of
    /// the input alone, and its length and its count lie in it; else it does nothing.
    #[inline(always)]
    pub(crate) fn enter(&mut self, table: &TypeTable, input: &[u8]) -> Option<Entered> {
        self.progress.enter_value(table, input)
    }

    /// Looks into the cell after the one that is under way, of the type at this node, where a level is at the end of this
    /// one: the beginning of a list, a set or a map, if its length and its count are lawful and lie in the input. A reader
    /// that is set to the level that is answered has ended the one cell and entered the other.
    #[inline(always)]
    pub(crate) fn enter_next(
        &self,
        level: Level,
        node: u32,
        table: &TypeTable,
        input: &[u8],
    ) -> Option<Entered> {
        self.progress.enter_next(level, node, table, input)
    }

    /// Takes the next bytes of the cell that is under way. A content that lies whole in them is lent from them.
    ///
    /// The `Partial` comes first: what is lent may be its own, and a clause says what the first parameter is once that
    /// loan has ended.
    #[cfg_attr(not(feature = "cli"), inline)]
    pub(crate) fn push<'a>(
        partial: &'a mut Partial,
        reader: &mut Self,
        table: &TypeTable,
        input: &'a [u8],
    ) -> CellPush<'a> {
        match reader.advance(partial, table, input) {
            CellAdvance::More { used } => CellPush::More { used },
            CellAdvance::Item { at, used, item } => CellPush::Item {
                at,
                used,
                item: item.lend(partial, input),
            },
            CellAdvance::Done => CellPush::Done,
            CellAdvance::Refused(refusal) => CellPush::Refused(refusal),
        }
    }
}
