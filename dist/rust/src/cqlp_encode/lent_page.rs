// Written by dist/erase from crates/cqlp_encode/src/lent_page.rt.
//! A page, written with cells that are lent twice.

use crate::cqlp_encode::page_writer::{PageError, PageWriter};
use crate::cqlp_encode::tally::Tally;
use crate::cqlp_message::{Frame, Unfit};
use crate::cqlp_note::Target;
use crate::cqlp_value::Value;

error! {
/// Why a page was not written, or not whole.
#[derive(Clone, Copy, Debug, PartialEq, Eq)]
pub enum LentError {
    /// No page is written with the cells that were lent first, and nothing was written.
    #[error("{0}")]
    Unfit(Unfit),
    /// Other cells were lent the second time. The frame's header and its parts before the cells were written, and all of these cells that can
    /// be the first of a page of that length; no frame can follow.
    #[error("other cells were lent the second time")]
    Changed,
    /// The target failed, or took nothing, after the frame's first bytes, this many.
    #[error("the target failed after {written} bytes of the frame")]
    Write {
        /// How many bytes of the frame are written, from its header on.
        written: u32,
    },
}
}

/// How many bytes these cells of a page have, row after row: what [`PageWriter::begin`] takes.
///
/// # Errors
///
/// In this order: where [`Frame::page_unfit`] says why the frame is no page that can be written with cells of as many bytes;
/// [`Unfit::RowShape`] where they are not as many as its rows and columns want; [`Unfit::CellType`] where one is none of its column's type.
pub(crate) fn measure_cells<'v, I: Iterator<Item = &'v Value>>(
    frame: &Frame,
    cells: I,
) -> Result<u32, Unfit> {
    let mut tally = Tally::new(frame);
    for cell in cells {
        tally.add(cell);
    }
    tally.measure()
}

/// Writes a page whose cells are lent twice, row after row, and answers how many bytes its frame has. The frame holds none of them. `first`
/// lends them to be measured, since the header counts them, and `again` to be written. It takes no memory. Section 4.2.5.2 of
/// `native_protocol_v4.spec`.
///
/// It is what [`encode`](crate::cqlp_encode::encode) writes of the frame that holds the cells of `again`. Those may be others than the first, as long
/// as they are as many, of their columns' types, and of as many bytes together.
///
/// # Errors
///
/// [`LentError::Unfit`] where [`measure_cells`] says why no page is written with the first cells, before anything is written.
/// [`LentError::Changed`] at the first cell of `again` that cannot be the next of the page, and where it ends too soon.
/// [`LentError::Write`] at the first call of the target that fails or takes nothing.
pub(crate) fn encode_page<
    'v,
    I: Iterator<Item = &'v Value>,
    J: Iterator<Item = &'v Value>,
    W: Target,
>(frame: &Frame, first: I, again: J, target: &mut W) -> Result<u32, LentError>
{
    let cells_len = match measure_cells(frame, first) {
        Ok(len) => len,
        Err(why) => return Err(LentError::Unfit(why)),
    };
    match PageWriter::begin(frame, cells_len, target) {
        Ok(page) => write_cells(page, again, target),
        Err(why) => Err(lent_error(why)),
    }
}

/// Writes these cells of a page that was begun, and answers how many bytes its frame has.
fn write_cells<'v, J: Iterator<Item = &'v Value>, W: Target>(
    page: PageWriter<'_>,
    cells: J,
    target: &mut W,
) -> Result<u32, LentError> {
    let mut page = page;
    for cell in cells {
        if let Err(why) = page.cell(cell, target) {
            return Err(lent_error(why));
        }
    }
    match page.finish() {
        Ok(len) => Ok(len),
        Err(why) => Err(lent_error(why)),
    }
}

/// What the writer of a page says, once its cells were measured.
fn lent_error(why: PageError) -> LentError {
    match why {
        PageError::Write { written } => LentError::Write { written },
        _ => LentError::Changed,
    }
}
