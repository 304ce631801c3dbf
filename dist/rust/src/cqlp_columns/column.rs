// Written by dist/erase from crates/cqlp_columns/src/column.rt.
//! A column of a batch.

use crate::kit_std::prelude::{KitVec, Vec};
use crate::cqlp_columns::bits::Bits;
use crate::cqlp_columns::bytes::Bytes;
use crate::cqlp_columns::cell::{
    Cell, CellRef, is_empty, is_true, is_valid, kind_of, lend, put_scalar, stored_len,
};
use crate::cqlp_columns::layout::{Layout, layout_of};
use crate::cqlp_columns::marks::Marks;
use crate::cqlp_kind::Kind;
use crate::kit_std::alloc::{AllocError};

error! {
/// Why no column is made.
#[derive(Clone, Copy, Debug, PartialEq, Eq)]
pub enum MakeError {
    /// Values of the kind have items.
    #[error("values with items")]
    Unsupported,
    /// Columns of a batch: there are more than it may have.
    #[error("too many columns")]
    TooManyColumns,
    /// Memory for the arrays was refused.
    #[error("no memory")]
    NoMemory,
}
}

error! {
/// Why a column does not take a cell.
#[derive(Clone, Copy, Debug, PartialEq, Eq)]
pub enum ColumnRefusal {
    /// It is none of the column's kind.
    #[error("a value of another kind")]
    NotOfKind,
    /// There is no room for it.
    #[error("no room")]
    Full,
}
}

/// The cells of a column, in arrays as Apache Arrow lays them out. All memory is taken when it is made.
pub struct Column {
    /// The values, where they are bits.
    truths: Bits,
    offsets: Vec<u64>,
    // A number's cell reads and writes only the fields from here on. They lie together, since a row touches those of each column.
    marks: Marks,
    values: Bytes,
    rows: u32,
    layout: Layout,
    kind: Kind,
}

impl Column {
    /// With no cells, and room for so many, which have at most `size` bytes of values. This is the one call that takes memory: `size`
    /// bytes, 8 for each cell and one more, and three bits for each cell.
    ///
    /// # Errors
    ///
    /// `Unsupported` where values of the kind have items; `NoMemory` where memory is refused.
    #[cfg_attr(not(feature = "cli"), inline)]
    pub fn new(kind: Kind, rows: u32, size: usize) -> Result<Self, MakeError> {
        match layout_of(kind) {
            None => Err(MakeError::Unsupported),
            Some(layout) => match Column::with_layout(kind, layout, rows, size) {
                Ok(column) => Ok(column),
                Err(_) => Err(MakeError::NoMemory),
            },
        }
    }

    /// With no cells, in this layout.
    #[cfg_attr(not(feature = "cli"), inline)]
    fn with_layout(
        kind: Kind,
        layout: Layout,
        rows: u32,
        size: usize,
    ) -> Result<Self, AllocError> {
        let mut offsets = Vec::kit_with_capacity(rows as usize + 1)?;
        put_offset(&mut offsets, layout, 0);
        Ok(Column {
            truths: Bits::new(rows)?,
            offsets,
            marks: Marks::new(rows)?,
            values: Bytes::new(size)?,
            rows,
            layout,
            kind,
        })
    }

    /// The kind of its values.
    #[cfg_attr(not(feature = "cli"), inline)]
    #[must_use]
    pub fn kind(&self) -> Kind {
        self.kind
    }

    /// How its values lie in memory.
    #[cfg_attr(not(feature = "cli"), inline)]
    #[must_use]
    pub fn layout(&self) -> Layout {
        self.layout
    }

    /// The values, one after the other, also zeros for cells without one; where they are bits, the bytes that have them.
    #[cfg_attr(not(feature = "cli"), inline)]
    #[must_use]
    pub fn values(&self) -> &[u8] {
        match self.layout {
            Layout::Bits => self.truths.as_slice(),
            Layout::Fixed(_) | Layout::Variable => self.values.as_slice(),
        }
    }

    /// Where each value begins in the bytes, and where the last one ends; none where the layout is not of values of any length. Below 2^63.
    #[cfg_attr(not(feature = "cli"), inline)]
    #[must_use]
    pub fn offsets(&self) -> &[u64] {
        &self.offsets
    }

    /// A bit for each cell: whether it has a value.
    #[cfg_attr(not(feature = "cli"), inline)]
    #[must_use]
    pub fn validity(&self) -> &[u8] {
        self.marks.valid()
    }

    /// A bit for each cell: whether it has a value of no bytes. Among numbers and other values of a fixed length these have no other place, and
    /// count as having no value.
    #[cfg_attr(not(feature = "cli"), inline)]
    #[must_use]
    pub fn empties(&self) -> &[u8] {
        self.marks.empty()
    }

    /// Where its values begin in memory. Each array stays where it is for as long as the column lives.
    #[cfg_attr(not(feature = "cli"), inline)]
    #[must_use]
    pub fn values_address(&self) -> *const u8 {
        match self.layout {
            Layout::Bits => self.truths.address(),
            Layout::Fixed(_) | Layout::Variable => self.values.address(),
        }
    }

    /// Where its offsets begin.
    #[cfg_attr(not(feature = "cli"), inline)]
    #[must_use]
    pub fn offsets_address(&self) -> *const u64 {
        self.offsets.as_ptr()
    }

    /// Where the bits begin that say which cells have a value.
    #[cfg_attr(not(feature = "cli"), inline)]
    #[must_use]
    pub fn validity_address(&self) -> *const u8 {
        self.marks.valid_address()
    }

    /// Where the bits begin that say which cells have a value of no bytes.
    #[cfg_attr(not(feature = "cli"), inline)]
    #[must_use]
    pub fn empties_address(&self) -> *const u8 {
        self.marks.empty_address()
    }

    /// How many cells it has.
    #[cfg_attr(not(feature = "cli"), inline)]
    #[must_use]
    pub fn len(&self) -> usize {
        self.marks.len()
    }

    /// Whether it has none.
    #[cfg_attr(not(feature = "cli"), inline)]
    #[must_use]
    pub fn is_empty(&self) -> bool {
        self.marks.len() == 0
    }

    /// Whether it has at most so many bytes of values.
    #[inline(always)]
    pub(crate) fn is_light(&self, bytes: u32) -> bool {
        self.values.len() <= bytes as usize
    }

    /// Whether more bytes than so many represent a cell.
    #[inline(always)]
    pub(crate) fn is_long(&self, cell: CellRef<'_>, content: u32) -> bool {
        cell_len(self.layout, cell) > content as usize
    }

    /// Whether a cell can be one of it.
    #[inline(always)]
    pub(crate) fn is_of(&self, cell: CellRef<'_>) -> bool {
        is_of(self.kind, cell)
    }

    /// Takes the next cell. Its arrays are those of the cells before, and of this one after them.
    ///
    /// # Errors
    ///
    /// `NotOfKind` for a scalar of another kind than the column's; else `Full` where there is no room for it. Nothing changes then.
    #[inline(always)]
    pub fn take(&mut self, cell: &Cell<'_>) -> Result<(), ColumnRefusal> {
        match self.refusal(cell) {
            Some(why) => Err(why),
            None => {
                self.kit_push(lend(cell));
                Ok(())
            }
        }
    }

    /// Why it does not take a cell.
    #[inline(always)]
    #[must_use]
    pub fn refusal(&self, cell: &Cell<'_>) -> Option<ColumnRefusal> {
        let cell = lend(cell);
        if !is_of(self.kind, cell) {
            return Some(ColumnRefusal::NotOfKind);
        }
        if self.fits(cell) {
            None
        } else {
            Some(ColumnRefusal::Full)
        }
    }

    /// Whether there is room for a cell.
    #[inline(always)]
    fn fits(&self, cell: CellRef<'_>) -> bool {
        self.marks.len() < self.rows as usize
            && self.values.len() <= self.values.room()
            && cell_len(self.layout, cell) <= self.values.room() - self.values.len()
    }

    /// How its values lie in memory, asked of its kind: where the kind is known, nothing is left to ask.
    #[inline(always)]
    fn layout_of_kind(&self) -> Layout {
        match layout_of(self.kind) {
            Some(layout) => layout,
            None => self.layout,
        }
    }

    /// Adds a cell.
    #[inline(always)]
    pub(crate) fn kit_push(&mut self, cell: CellRef<'_>) {
        let layout = self.layout_of_kind();
        self.marks.kit_push(is_valid(layout, cell), is_empty(cell));
        put_cell(&mut self.values, layout, cell);
        let end = self.values.len() as u64;
        put_beside(&mut self.truths, &mut self.offsets, layout, cell, end);
    }

    /// Removes all cells, and keeps the memory.
    #[cfg_attr(not(feature = "cli"), inline)]
    pub fn clear(&mut self) {
        self.values.clear();
        self.truths.clear();
        remove_all(&mut self.offsets);
        put_offset(&mut self.offsets, self.layout, 0);
        self.marks.clear();
    }
}

/// Whether a cell can be one of a column of this kind.
#[inline(always)]
fn is_of(kind: Kind, cell: CellRef<'_>) -> bool {
    match cell {
        CellRef::Null | CellRef::Empty => true,
        CellRef::Holds(scalar) => is(kind_of(scalar), kind),
    }
}

/// Whether two kinds are the same.
#[inline(always)]
fn is(one: Kind, other: Kind) -> bool {
    one == other
}

/// How many bytes are in a cell's place.
#[inline(always)]
fn cell_len(layout: Layout, cell: CellRef<'_>) -> usize {
    match cell {
        CellRef::Null | CellRef::Empty => blank_len(layout),
        CellRef::Holds(scalar) => stored_len(scalar),
    }
}

/// How many bytes are in the place of a cell without a value.
#[inline(always)]
fn blank_len(layout: Layout) -> usize {
    match layout {
        Layout::Bits | Layout::Variable => 0,
        Layout::Fixed(width) => width as usize,
    }
}

/// Adds the bytes in a cell's place, for which there is room.
#[inline(always)]
fn put_cell(values: &mut Bytes, layout: Layout, cell: CellRef<'_>) {
    match cell {
        CellRef::Null | CellRef::Empty => values.push_zeros(blank_len(layout)),
        CellRef::Holds(scalar) => put_scalar(values, scalar),
    }
}

/// Adds what a cell has beside its bytes: the bit in its place, where values are bits, or where it ends, where the layout has offsets.
#[inline(always)]
fn put_beside(
    truths: &mut Bits,
    offsets: &mut Vec<u64>,
    layout: Layout,
    cell: CellRef<'_>,
    end: u64,
)
{
    match layout {
        Layout::Bits => truths.kit_push(is_true(cell)),
        Layout::Fixed(_) => {}
        Layout::Variable => offsets.push_reserved(end),
    }
}

/// Adds an offset, where the layout has offsets.
#[inline(always)]
fn put_offset(offsets: &mut Vec<u64>, layout: Layout, offset: u64) {
    match layout {
        Layout::Variable => offsets.push_reserved(offset),
        Layout::Bits | Layout::Fixed(_) => {}
    }
}

/// Removes all offsets, and leaves the memory in its place.
#[cfg_attr(not(feature = "cli"), inline)]
fn remove_all(offsets: &mut Vec<u64>) {
    while !offsets.is_empty() {
        let _last = offsets.take_last();
    }
}
