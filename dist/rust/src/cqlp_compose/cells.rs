// Written by dist/erase from crates/cqlp_compose/src/cells.rt.
//! The cells of a page, some at a time.

use crate::kit_std::prelude::{Vec};
use crate::cqlp_compose::column::column_type;
use crate::cqlp_compose::error::PageCellError;
use crate::cqlp_compose::memory::VecTarget;
use crate::cqlp_compose::place::PageProgress;
use crate::cqlp_build_cells::{CellBuilder, CellError, CellLimits, ends_cell};
use crate::cqlp_encode::write_value;
use crate::cqlp_grammar::Event;
use crate::cqlp_message::Frame;
use crate::cqlp_note::Header;
use crate::cqlp_type::TypeTree;
use crate::cqlp_value::{Value, value_size};

/// Writes some cells of a page into memory, of their events: the next after those that came before, each whole. Section 4.2.5.2 of
/// `native_protocol_v4.spec`.
///
/// It takes what a decoder says of the cells, in that order, each event with its row and its column, and holds what it writes and the
/// events of one cell. The page itself, a [`Frame`] without cells and a [`PageProgress`], is the caller's, and is behind the cells only once
/// the caller puts [`WrittenCells::place`] there. Until then, and where an event was refused, nothing has changed. A page of any size is
/// written in as many pieces as the caller likes:
///
/// ```text
/// let mut cells = PageCells::new(&frame, place, limits);
/// for event in events {
///     cells.take(event)?;
/// }
/// let written = cells.finish()?;
/// target.write_all(&written.bytes)?;
/// place = written.place;
/// ```
///
/// `laws::page_has_its_events` says that the bytes of all pieces, behind those of
/// [`page_head`](crate::cqlp_compose::page_head), are the frame with these events.
pub struct PageCells<'a> {
    frame: &'a Frame,
    place: PageProgress,
    cell: CellBuilder,
    /// Whether a cell has begun and not ended.
    cut: bool,
    target: VecTarget,
}

/// Cells of a page that were written.
#[derive(Debug, PartialEq, Eq)]
pub struct WrittenCells {
    /// Where the page is behind them.
    pub place: PageProgress,
    /// The bytes of these cells, to be written behind those of the cells before them.
    pub bytes: Vec<u8>,
}

impl<'a> PageCells<'a> {
    /// The cells behind this place of this page, none of which has come yet. It asks for no memory. `limits` is what may be held of one cell.
    #[must_use]
    pub fn new(
        frame: &'a Frame,
        place: PageProgress,
        limits: CellLimits,
    ) -> PageCells<'a> {
        PageCells {
            frame,
            place,
            cell: CellBuilder::new(limits),
            cut: false,
            target: VecTarget::new(Vec::new()),
        }
    }

    /// Takes the next event. At the end of a cell its bytes are written.
    ///
    /// # Errors
    ///
    /// [`PageCellError::Cell`] with [`CellError::Misplaced`] at an event that is not of the row and the column of the next cell, or where all cells
    /// have come, and else with what [`CellBuilder::take`] says: it is as it was then. At the last event of a cell
    /// [`PageCellError::Cell`] with [`CellError::NoValue`] where the events are those of no value of the column's type, then
    /// [`PageCellError::PastLength`] where the cells would have more bytes than were said, and [`CellError::NoMemory`] where memory
    /// was refused: the whole cell is forgotten then, and it is where it was before the cell.
    pub fn take(&mut self, event: &Event<'_>) -> Result<(), PageCellError> {
        if !self.is_next(event) {
            return Err(PageCellError::Cell(CellError::Misplaced));
        }
        match self.cell.take(event) {
            Ok(()) => self.pass_event(event),
            Err(why) => Err(PageCellError::Cell(why)),
        }
    }

    /// The bytes of the cells, and where the page is behind them.
    ///
    /// # Errors
    ///
    /// [`PageCellError::NotEnded`] where a cell has begun and not ended.
    pub fn finish(self) -> Result<WrittenCells, PageCellError> {
        let PageCells {
            frame: _,
            place,
            cell: _,
            cut,
            target,
        } = self;
        if cut {
            return Err(PageCellError::NotEnded);
        }
        Ok(WrittenCells {
            place,
            bytes: target.into_bytes(),
        })
    }

    /// Whether an event can be of the next cell.
    fn is_next(&self, event: &Event<'_>) -> bool {
        if self.place.cells >= self.frame.cells_wanted() {
            return false;
        }
        match *event {
            Event::Leaf { row, column, .. }
            | Event::Null { row, column, .. }
            | Event::Empty { row, column, .. }
            | Event::Enter { row, column, .. }
            | Event::Part { row, column, .. } => {
                u64::from(row) == self.row() && u64::from(column) == self.column()
            }
            Event::Leave { .. } => true,
            _ => false,
        }
    }

    /// The row of the next cell, the first of which is 0.
    fn row(&self) -> u64 {
        match self
            .place
            .cells
            .checked_div(u64::from(self.frame.columns()))
        {
            Some(row) => row,
            None => unreachable!(),
        }
    }

    /// The column of the next cell, the first of which is 0.
    fn column(&self) -> u64 {
        match self
            .place
            .cells
            .checked_rem(u64::from(self.frame.columns()))
        {
            Some(column) => column,
            None => unreachable!(),
        }
    }

    /// An event was taken that is of the next cell: the cell ends after it, or goes on.
    fn pass_event(&mut self, event: &Event<'_>) -> Result<(), PageCellError> {
        if ends_cell(event) {
            self.end()
        } else {
            self.cut = true;
            Ok(())
        }
    }

    /// All events of the next cell have come.
    fn end(&mut self) -> Result<(), PageCellError> {
        let of = column_type(self.frame, self.column() as usize);
        self.cut = false;
        let value = match self.cell.finish(of) {
            Ok(value) => value,
            Err(why) => return Err(PageCellError::Cell(why)),
        };
        if value_size(&value) > u64::from(self.place.free.min(Header::LONGEST_BODY)) {
            return Err(PageCellError::PastLength);
        }
        self.put(&value, of)
    }

    /// Writes a value as the next cell.
    fn put(&mut self, value: &Value, of: Option<&TypeTree>) -> Result<(), PageCellError> {
        let len = self.target.len();
        match write_value(value, of, &mut self.target) {
            Ok(size) => {
                self.place = PageProgress {
                    cells: self.place.cells + 1,
                    free: self.place.free - size,
                };
                Ok(())
            }
            Err(_) => {
                self.target.truncate(len);
                Err(PageCellError::Cell(CellError::NoMemory))
            }
        }
    }
}
