// Written by dist/erase from crates/cqlp_build/src/held_events.rt.
//! The events of a frame, as they are held: those of the first plain cells of a page as their values.

use crate::kit_std::prelude::{KitVec, Vec};
use crate::cqlp_build::item::{Content, Item, own};
use crate::cqlp_build::misfit::is_impossible;
use crate::cqlp_build::plain_cells::{
    is_next, is_of_kind, is_page, kind_at, put, put_scalar, step_of, take_cell,
};
use crate::cqlp_build_cells::own_scalar;
use crate::cqlp_grammar::Event;
use crate::cqlp_kind::{Kind, Scalar};
use crate::cqlp_message::Metadata;
use crate::cqlp_note::Field;
use crate::cqlp_value::Value;
use crate::kit_std::alloc::{AllocError};
use crate::kit_std::collections::VecDeque;
use core::mem;

/// The events after a header, in their order: those before the cells of a page, a run of its cells, and those after the run.
///
/// The run are the first cells of the page, row by row, while each is null, empty or a scalar of its column's kind: of each it holds the
/// value. Of any other event it holds an [`Item`].
pub(crate) struct HeldEvents {
    head: VecDeque<Item>,
    cells: Vec<Value>,
    /// How many bytes the cells of the run have, each with its length; 2^64 - 1 where they have more.
    size: u64,
    /// The kinds of the type options before the run, which are those of its columns where no option has others in it.
    kinds: Vec<Kind>,
    /// How many cells of the run were taken.
    taken: usize,
    /// The number of the last column of a row, by the last count of columns before the run.
    last: u32,
    tail: VecDeque<Item>,
}

impl HeldEvents {
    /// None.
    pub fn new() -> HeldEvents {
        HeldEvents {
            head: VecDeque::new(),
            cells: Vec::new(),
            size: 0,
            kinds: Vec::new(),
            taken: 0,
            last: 0,
            tail: VecDeque::new(),
        }
    }

    /// Forgets them. The room that it has asked for is kept.
    pub fn clear(&mut self) {
        self.head.clear();
        self.cells.clear();
        self.size = 0;
        self.kinds.clear();
        self.taken = 0;
        self.last = 0;
        self.tail.clear();
    }

    /// How many there are, or 2^64 - 1 where there are more.
    #[inline(always)]
    pub fn len(&self) -> usize {
        let run = self.cells.len().saturating_sub(self.taken);
        self.head
            .len()
            .saturating_add(run)
            .saturating_add(self.tail.len())
    }

    /// Whether there is none.
    pub fn is_empty(&self) -> bool {
        self.len() == 0
    }

    /// Adds an event behind the others.
    #[inline(always)]
    pub(crate) fn kit_push(&mut self, event: &Event<'_>) -> Result<(), AllocError> {
        match event {
            Event::Leaf {
                row,
                column,
                level: 0,
                scalar,
            } => {
                if self.put_cell(*row, *column, scalar)? {
                    return Ok(());
                }
                self.push_scalar(*row, *column, scalar)
            }
            _ => self.push_other(event),
        }
    }

    /// Adds the cell of a row and a column behind the others, which is this scalar, if it is the next of the run and the run has room for it, and
    /// says whether it did so.
    #[inline(always)]
    fn put_cell(
        &mut self,
        row: u32,
        column: u32,
        scalar: &Scalar<'_>,
    ) -> Result<bool, AllocError> {
        if !is_next(row, column, self.last, &self.cells, self.taken, &self.tail) {
            return Ok(false);
        }
        let kind = kind_at(&self.kinds, column);
        put_scalar(&mut self.cells, &mut self.size, kind, scalar)
    }

    /// Adds the cell of a row and a column behind the others, which is this scalar: mostly one of the run for which there is no room yet.
    #[cold]
    #[inline(never)]
    fn push_scalar(
        &mut self,
        row: u32,
        column: u32,
        scalar: &Scalar<'_>,
    ) -> Result<(), AllocError> {
        let atom = own_scalar(scalar)?;
        self.push_cell(row, column, Value::Leaf(atom))
    }

    /// Adds an event behind the others, which is mostly no scalar of the run.
    #[cold]
    #[inline(never)]
    fn push_other(&mut self, event: &Event<'_>) -> Result<(), AllocError> {
        match event {
            Event::Null {
                row,
                column,
                level: 0,
            } => self.push_cell(*row, *column, Value::Null),
            Event::Empty {
                row,
                column,
                level: 0,
            } => self.push_cell(*row, *column, Value::Empty),
            _ => {
                let item = own(event)?;
                self.push_item(item)
            }
        }
    }

    /// Adds the cell of a row and a column behind the others, which is a plain value.
    fn push_cell(&mut self, row: u32, column: u32, cell: Value) -> Result<(), AllocError> {
        if is_next(row, column, self.last, &self.cells, self.taken, &self.tail)
            && is_of_kind(&cell, kind_at(&self.kinds, column))
        {
            self.cells.kit_reserve(1)?;
            put(&mut self.cells, &mut self.size, cell);
            return Ok(());
        }
        self.push_item(Item::Cell {
            row,
            column,
            level: 0,
            step: step_of(cell),
        })
    }

    /// Adds an event behind the others, which is no cell of the run.
    pub fn push_item(&mut self, item: Item) -> Result<(), AllocError> {
        if !self.cells.is_empty() || !self.tail.is_empty() {
            self.tail.push_back(item)?;
            return Ok(());
        }
        match &item {
            Item::Holds(Field::Columns, Content::Count(count)) => {
                self.last = count.saturating_sub(1);
                self.kinds.clear();
            }
            Item::Kind(kind) => self.kinds.kit_push(*kind)?,
            _ => {}
        }
        self.head.push_back(item)?;
        Ok(())
    }

    /// Takes the next.
    pub fn pop_front(&mut self) -> Option<Item> {
        if let Some(item) = self.head.pop_front() {
            return Some(item);
        }
        if self.taken < self.cells.len() {
            let item = take_cell(&mut self.cells, self.taken, self.last);
            self.taken += 1;
            return Some(item);
        }
        self.tail.pop_front()
    }

    /// Takes the cells of this many rows as they lie there, where they are all that there is, and each is a plain value of its column's type; and
    /// answers how many bytes they have, each with its length.
    pub fn take_page(
        &mut self,
        rows: u32,
        meta: &Metadata,
    ) -> Option<(Vec<Value>, u64)> {
        if !self.head.is_empty() || !self.tail.is_empty() {
            return None;
        }
        if !is_page(rows, meta, self.last, &self.cells, self.taken, &self.kinds) {
            return None;
        }
        let cells = mem::replace(&mut self.cells, Vec::new());
        let size = self.size;
        self.size = 0;
        Some((cells, size))
    }

    /// How many come before the first that is in no frame, whatever comes before it.
    pub fn possible(&self) -> usize {
        for (at, item) in self.head.iter().enumerate() {
            if is_impossible(item) {
                return at;
            }
        }
        let before = self.head.len().saturating_add(self.cells.len());
        for (at, item) in self.tail.iter().enumerate() {
            if is_impossible(item) {
                return before.saturating_add(at);
            }
        }
        self.len()
    }
}
