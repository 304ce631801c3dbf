// Written by dist/erase from crates/cqlp_compose/src/error.rt.
//! Why a page is not begun, its cells are not written or put, or it has not ended.

use crate::cqlp_build::BuildError;
use crate::cqlp_build_cells::CellError;
use crate::cqlp_message::Unfit;

error! {
/// Why an event was not taken as the next of a page's cells, or the cells do not end.
#[derive(Clone, Copy, Debug, PartialEq, Eq)]
pub enum PageCellError {
    /// The event is none of the cell that comes next, or the events of the cell are those of no value of its column's type.
    #[error("{0}")]
    Cell(CellError),
    /// The cells would have more bytes than were said.
    #[error("the cells would have more bytes than were said")]
    PastLength,
    /// The last cell has not ended.
    #[error("the last cell has not ended")]
    NotEnded,
}
}

error! {
/// Why there is nothing to be written before the cells of a page.
#[derive(Clone, Copy, Debug, PartialEq, Eq)]
pub enum HeadError {
    /// The frame is no page that can be written with its cells after it.
    #[error("{0}")]
    Unfit(Unfit),
    /// Memory was refused.
    #[error("no memory")]
    NoMemory,
}
}

error! {
/// Why a page is not begun.
#[derive(Clone, Copy, Debug, PartialEq, Eq)]
pub enum BeginPageError {
    /// The events of its head are those of no frame, or past a limit of the composer's; or memory was refused.
    #[error("{0}")]
    Build(BuildError),
    /// They are those of another frame than a page.
    #[error("the frame is no page")]
    NoPage,
    /// There is no page with this head, and as many bytes of cells.
    #[error("{0}")]
    Unfit(Unfit),
}
}

error! {
/// Why there is no list of the kinds of a page's columns.
#[derive(Clone, Copy, Debug, PartialEq, Eq)]
pub enum KindsError {
    /// Values of a column have items.
    #[error("values with items")]
    Nested,
    /// Memory was refused.
    #[error("no memory")]
    NoMemory,
}
}

error! {
/// Why an event of a cell is not taken, or its cell is not put.
#[derive(Clone, Copy, Debug, PartialEq, Eq)]
pub enum PutError {
    /// It is none of the cell that comes next, or the cell has no value.
    #[error("{0}")]
    Cell(PageCellError),
    /// The cell has this many bytes, and there is no room for as many.
    #[error("the cell has {0} bytes, and there is no room for as many")]
    NoRoom(usize),
}
}

error! {
/// What a page still wants.
#[derive(Clone, Copy, Debug, PartialEq, Eq)]
pub enum Unended {
    /// Cells are still to come.
    #[error("there are fewer cells than rows times columns")]
    CellsMissing,
    /// All cells have come, and had fewer bytes than were said.
    #[error("the cells have fewer bytes than were said")]
    BytesMissing,
}
}
