// Written by dist/erase from crates/cqlp_columns/src/columns.rt.
//! Rows of a page as columns.

use crate::kit_std::prelude::{KitVec, Vec};
use crate::cqlp_columns::cell::CellRef;
use crate::cqlp_columns::column::{Column, MakeError};
use crate::cqlp_columns::found::{Found, found_in};
use crate::cqlp_columns::layout::layout_of;
use crate::cqlp_grammar::Event;
use crate::cqlp_kind::Kind;
use crate::kit_std::alloc::{AllocError};

/// How large a batch may be.
#[derive(Clone, Copy, Debug, PartialEq, Eq)]
pub struct BatchLimits {
    /// How many columns.
    pub columns: u32,
    /// How many rows.
    pub rows: u32,
    /// With how many bytes of values in a column no further row begins; those of its last row come on top of it.
    pub bytes: u32,
    /// How many bytes one value may have.
    pub content: u32,
}

error! {
/// Why an event is not taken. Nothing changes then.
#[derive(Clone, Copy, Debug, PartialEq, Eq)]
pub enum TakeError {
    /// A row begins for which there is no room: the batch is to be read and cleared, and then the event is taken.
    #[error("the batch is full")]
    Full,
    /// A part of a cell: a value with items, an item of one, or bytes of a long content.
    #[error("a part of a cell")]
    Part,
    /// Its column is not the next one.
    #[error("a cell of another column than the next")]
    OutOfOrder,
    /// A value of another kind than its column's.
    #[error("a value of another kind than its column's")]
    NotOfKind,
    /// A value of more bytes than a value may have.
    #[error("a value that is too long")]
    TooLong,
}
}

/// Rows of a page as columns: a batch of them, in memory that is taken once. An event of a page is taken, or refused by name.
pub struct Columns {
    limits: BatchLimits,
    columns: Vec<Column>,
    /// The column of the next cell, or [`NO_TURN`].
    turn: usize,
    /// Whether each column has at most as many bytes of values as a row may begin with.
    light: bool,
}

/// No column's turn: a row begins next, for which there is no room.
const NO_TURN: usize = usize::MAX;

impl Columns {
    /// With no rows, and a column for each of these kinds. This is the one call that takes memory: for each column `bytes` and `content`, 8 bytes for
    /// each row and one more, and three bits for each row.
    ///
    /// # Errors
    ///
    /// In this order: `TooManyColumns`; `Unsupported` where values of one of the kinds have items; `NoMemory` where memory is refused.
    #[cfg_attr(not(feature = "cli"), inline)]
    pub fn new(limits: BatchLimits, kinds: &[Kind]) -> Result<Self, MakeError> {
        if kinds.len() > limits.columns as usize {
            return Err(MakeError::TooManyColumns);
        }
        if !have_layouts(kinds) {
            return Err(MakeError::Unsupported);
        }
        match make_columns(limits, kinds) {
            Ok(columns) => {
                let light = true;
                let turn = first_turn(&columns, limits, light);
                Ok(Columns {
                    limits,
                    columns,
                    turn,
                    light,
                })
            }
            Err(_) => Err(MakeError::NoMemory),
        }
    }

    /// The columns. Where a row is under way, the first of them have a cell more than [`Columns::rows`] says.
    #[cfg_attr(not(feature = "cli"), inline)]
    #[must_use]
    pub fn columns(&self) -> &[Column] {
        &self.columns
    }

    /// How many whole rows there are.
    #[cfg_attr(not(feature = "cli"), inline)]
    #[must_use]
    pub fn rows(&self) -> usize {
        match self.columns.last() {
            None => 0,
            Some(column) => column.len(),
        }
    }

    /// Whether a row begins next for which there is no room, so that no cell is taken before the batch is cleared.
    #[inline]
    #[must_use]
    pub fn is_full(&self) -> bool {
        self.turn == NO_TURN
    }

    /// Takes the next event of a page. Events that are not of cells change nothing.
    ///
    /// # Errors
    ///
    /// `Part`, `OutOfOrder`; where a row begins for which there is no room, `Full`; else `NotOfKind` or `TooLong`. Nothing changes then. In mid-row there is
    /// always room.
    #[inline(always)]
    pub fn take(&mut self, event: &Event<'_>) -> Result<(), TakeError> {
        match found_in(event) {
            Found::Nothing => Ok(()),
            Found::Part => Err(TakeError::Part),
            Found::Cell { column, cell } => self.put(column as usize, cell),
        }
    }

    /// Takes the next cell.
    #[inline(always)]
    fn put(&mut self, column: usize, cell: CellRef<'_>) -> Result<(), TakeError> {
        match self.fault(column, cell) {
            Some(why) => Err(why),
            None => {
                let light = put_in(self.columns.as_mut_slice(), self.limits, column, cell);
                keep(&mut self.light, light);
                self.turn = turn_after(&self.columns, self.limits, self.light, column);
                Ok(())
            }
        }
    }

    /// Why a cell of a column is not taken.
    #[inline(always)]
    fn fault(&self, column: usize, cell: CellRef<'_>) -> Option<TakeError> {
        if column != self.turn {
            return Some(fault_out_of_turn(self.turn, column));
        }
        fault_among(&self.columns, self.limits, column, cell)
    }

    /// Removes all rows, also one that is under way, and keeps the memory.
    #[cfg_attr(not(feature = "cli"), inline)]
    pub fn clear(&mut self) {
        clear_all(self.columns.as_mut_slice());
        self.light = true;
        self.turn = first_turn(&self.columns, self.limits, true);
    }
}

/// Whether values of each kind are scalars.
fn have_layouts(kinds: &[Kind]) -> bool {
    kinds.iter().all(|kind| has_layout(*kind))
}

/// Whether values of a kind are scalars.
fn has_layout(kind: Kind) -> bool {
    layout_of(kind).is_some()
}

/// A column for each kind.
#[cfg_attr(not(feature = "cli"), inline)]
fn make_columns(
    limits: BatchLimits,
    kinds: &[Kind],
) -> Result<Vec<Column>, AllocError> {
    let mut columns = Vec::kit_with_capacity(kinds.len())?;
    for kind in kinds {
        columns.push_reserved(make_column(limits, *kind)?);
    }
    Ok(columns)
}

/// A column of a kind.
#[cfg_attr(not(feature = "cli"), inline)]
fn make_column(
    limits: BatchLimits,
    kind: Kind,
) -> Result<Column, AllocError> {
    let size = limits.bytes as usize + limits.content as usize;
    match Column::new(kind, limits.rows, size) {
        Ok(column) => Ok(column),
        Err(_) => Err(AllocError),
    }
}

/// Why a cell of a column is not taken where it is not its turn.
#[cold]
fn fault_out_of_turn(turn: usize, column: usize) -> TakeError {
    if turn == NO_TURN && column == 0 {
        TakeError::Full
    } else {
        TakeError::OutOfOrder
    }
}

/// Why the column of a number does not take a cell.
#[inline(always)]
fn fault_among(
    columns: &[Column],
    limits: BatchLimits,
    column: usize,
    cell: CellRef<'_>,
) -> Option<TakeError> {
    if column < columns.len() {
        fault_in(&columns[column], limits, cell)
    } else {
        Some(TakeError::OutOfOrder)
    }
}

/// Why a column does not take a cell, where there is room.
#[inline(always)]
fn fault_in(
    column: &Column,
    limits: BatchLimits,
    cell: CellRef<'_>,
) -> Option<TakeError> {
    if !column.is_of(cell) {
        Some(TakeError::NotOfKind)
    } else if column.is_long(cell, limits.content) {
        Some(TakeError::TooLong)
    } else {
        None
    }
}

/// Adds a cell to the column of a number, which takes it, and answers whether the column is light with it.
#[inline(always)]
fn put_in(
    columns: &mut [Column],
    limits: BatchLimits,
    column: usize,
    cell: CellRef<'_>,
) -> bool {
    let column = &mut columns[column];
    column.kit_push(cell);
    column.is_light(limits.bytes)
}

/// Keeps whether all columns are light, where one of them changed.
#[inline(always)]
fn keep(light: &mut bool, more: bool) {
    if !more {
        *light = false;
    }
}

/// Removes the cells of each column.
#[cfg_attr(not(feature = "cli"), inline)]
fn clear_all(columns: &mut [Column]) {
    for column in columns.iter_mut() {
        column.clear();
    }
}

/// Whose turn it is after a cell of this column.
#[inline(always)]
fn turn_after(
    columns: &[Column],
    limits: BatchLimits,
    light: bool,
    column: usize,
) -> usize {
    if column + 1 == columns.len() {
        first_turn(columns, limits, light)
    } else {
        column + 1
    }
}

/// Whose turn it is where a row begins.
#[inline(never)]
fn first_turn(columns: &[Column], limits: BatchLimits, light: bool) -> usize {
    match columns.last() {
        None => 0,
        Some(column) => {
            if light && column.len() < limits.rows as usize {
                0
            } else {
                NO_TURN
            }
        }
    }
}
