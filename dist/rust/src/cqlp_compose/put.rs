// Written by dist/erase from crates/cqlp_compose/src/put.rt.
//! Cells of a page, put into rooms of the caller's.

use crate::cqlp_compose::cells::PageCells;
use crate::cqlp_compose::column::column_type;
use crate::cqlp_compose::error::{PageCellError, PutError};
use crate::cqlp_compose::page::OpenPage;
use crate::cqlp_compose::place::PageProgress;
use crate::cqlp_compose::single::{WholeCell, plain_kind, scalar_cell, whole_cell};
use crate::cqlp_build_cells::{CellLimits, ends_cell};
use crate::cqlp_grammar::Event;
use crate::cqlp_kind::{Kind, Scalar};
use crate::cqlp_message::Frame;
use crate::cqlp_note::Header;

/// Puts the next cells of a page into rooms of the caller's, each as soon as its last event has come. Section 4.2.5.2 of
/// `native_protocol_v4.spec`.
///
/// It takes what a decoder says of the cells, in that order, each event with its row and its column, and holds the events of one cell that has
/// several. A cell of one event is put as it comes. The page stays where it is: the caller makes it go on to [`PutCells::place`]. After an error the
/// cell under way is forgotten, and nothing of it was put, so its events may be given again, from the first on, as where there was no room.
pub struct PutCells<'a> {
    frame: &'a Frame,
    limits: CellLimits,
    /// Behind the last cell that was put.
    place: PageProgress,
    /// The cell under way, where events of it came.
    cells: Option<PageCells<'a>>,
}

impl<'a> PutCells<'a> {
    /// The cells after the place of this page, none of which has come yet. It asks for no memory. `limits` is what may be held of one cell.
    #[must_use]
    pub fn new(page: &'a OpenPage, limits: CellLimits) -> PutCells<'a> {
        PutCells {
            frame: &page.frame,
            limits,
            place: page.place,
            cells: None,
        }
    }

    /// Where the page is after the cells that were put.
    #[must_use]
    pub fn place(&self) -> PageProgress {
        self.place
    }

    /// Takes the next event. Where a cell ends with it, its bytes are put at the front of the room, and the answer is how many they are; it is
    /// None where the cell goes on.
    ///
    /// # Errors
    ///
    /// [`PutError::Cell`] with what [`PageCells::take`] says, and [`PutError::NoRoom`] where the cell that ends has more bytes than the room.
    /// The cell is forgotten then, and the room is as it was.
    #[inline]
    pub fn take(&mut self, event: &Event<'_>, room: &mut [u8]) -> Result<Option<usize>, PutError> {
        if self.cells.is_none() {
            if let Some(cell) = self.next_cell(event) {
                return self.put_cell(cell, room);
            }
        }
        self.take_next(event, room)
    }

    /// The next cell, where this event is all of it, and is seen to be a value of its column's type.
    #[inline]
    fn next_cell<'e>(&self, event: &Event<'e>) -> Option<WholeCell<'e>> {
        let (row, column) = match *event {
            Event::Leaf { row, column, .. }
            | Event::Null { row, column, .. }
            | Event::Empty { row, column, .. } => (row, column),
            _ => return None,
        };
        if self.place.cells >= self.frame.cells_wanted() || self.limits.events == 0 {
            return None;
        }
        if !is_at(self.place.cells, self.frame.columns(), row, column) {
            return None;
        }
        whole_cell(
            event,
            column_type(self.frame, column as usize),
            self.limits.bytes,
        )
    }

    /// Puts the next cell, of which nothing has come yet.
    #[inline(always)]
    fn put_cell(&mut self, cell: WholeCell<'_>, room: &mut [u8]) -> Result<Option<usize>, PutError> {
        let size = cell.size();
        if size > self.place.free.min(Header::LONGEST_BODY) as usize {
            return Err(PutError::Cell(PageCellError::PastLength));
        }
        if size > room.len() {
            return Err(PutError::NoRoom(size));
        }
        cell.put(room);
        self.place = PageProgress {
            cells: self.place.cells + 1,
            free: self.place.free - size as u32,
        };
        Ok(Some(size))
    }

    /// The kind of the next cell, if no event of it came, the limits allow one, this is its row and its column, and values of its type have no
    /// items; else None.
    #[must_use]
    #[inline(always)]
    pub fn next_kind(&self, row: u32, column: u32) -> Option<Kind> {
        if self.cells.is_some() {
            return None;
        }
        if self.place.cells >= self.frame.cells_wanted() || self.limits.events == 0 {
            return None;
        }
        if !is_at(self.place.cells, self.frame.columns(), row, column) {
            return None;
        }
        plain_kind(column_type(self.frame, column as usize))
    }

    /// Puts the next cell, which is of this kind and has one event, a leaf with this scalar, and answers how many bytes it has. It is None, and nothing
    /// changes, exactly where the scalar is of another kind or none of its kind, or passes the limits, the page or the room.
    #[inline(always)]
    pub(crate) fn put_scalar(&mut self, scalar: &Scalar<'_>, kind: Kind, room: &mut [u8]) -> Option<usize> {
        match scalar_cell(scalar, kind, self.limits.bytes) {
            Some(cell) => {
                let Ok(len) = self.put_cell(cell, room) else {
                    return None;
                };
                len
            }
            None => None,
        }
    }

    /// Puts the next cell, which is null, and answers how many bytes it has. It is None, and nothing changes, where the page or the room has fewer.
    #[inline(always)]
    pub(crate) fn put_null(&mut self, room: &mut [u8]) -> Option<usize> {
        let Ok(len) = self.put_cell(WholeCell::Null, room) else {
            return None;
        };
        len
    }

    /// Takes the next event of a cell that may have several.
    fn take_next(&mut self, event: &Event<'_>, room: &mut [u8]) -> Result<Option<usize>, PutError> {
        let mut cells = self.take_cells();
        match cells.take(event) {
            Ok(()) => self.pass_event(cells, event, room),
            Err(why) => Err(PutError::Cell(why)),
        }
    }

    /// The cell under way, of which no event may have come; none is under way then.
    fn take_cells(&mut self) -> PageCells<'a> {
        match self.cells.take() {
            Some(cells) => cells,
            None => PageCells::new(self.frame, self.place, self.limits),
        }
    }

    /// An event of the cell was taken: the cell ends after it, or goes on.
    fn pass_event(
        &mut self,
        cells: PageCells<'a>,
        event: &Event<'_>,
        room: &mut [u8],
    ) -> Result<Option<usize>, PutError> {
        if ends_cell(event) {
            self.put(cells, room)
        } else {
            self.cells = Some(cells);
            Ok(None)
        }
    }

    /// Puts the cell that was taken whole.
    fn put(&mut self, cells: PageCells<'a>, room: &mut [u8]) -> Result<Option<usize>, PutError> {
        let Ok(written) = cells.finish() else {
            unreachable!()
        };
        let len = written.bytes.len();
        if len > room.len() {
            return Err(PutError::NoRoom(len));
        }
        room[..len].copy_from_slice(&written.bytes);
        self.place = written.place;
        Ok(Some(len))
    }
}

/// Whether this is the row and the column of the cell before which so many have come, of a page of so many columns.
#[inline]
pub(crate) fn is_at(cells: u64, columns: u32, row: u32, column: u32) -> bool {
    column < columns && u64::from(row) * u64::from(columns) + u64::from(column) == cells
}
