//! Rows of pages of any size, as they come.

use core::fmt;

use crate::cqlp_build_cells::CellLimits;
use crate::cqlp_decode::Decoder;
use crate::cqlp_grammar::{Event, Sink, SinkFault};
use crate::cqlp_kind::Scalar;
use crate::cqlp_message::Spec;
use crate::cqlp_note::Address;
use crate::cqlp_skip::Fed;
use crate::rows::cell::{LentCell, Place};
use crate::rows::error::RowError;
use crate::rows::feed::{CellSink, TakesCells, feed, for_kinds, implement};
use crate::rows::from_row::{FromRow, Row};
use crate::rows::reading::{Names, PageHead, Reading, Taken};

/// What a reader of rows holds of a cell with items, unless it is made with other limits: 1,048,576 items and as many bytes.
pub const CELL_LIMITS: CellLimits = CellLimits { events: 1_048_576, bytes: 1_048_576 };

/// A [`Sink`] that hands each row of a page of any size to a closure, as its last cell comes. Frames that are no pages are taken too: what
/// they say is in [`head`](RowSink::head).
///
/// It holds the fields of one row, one cell with items within its limits, and the names of the columns of one page. It asks for memory for
/// each page's columns, and for a row for nothing but what the row's own types own.
pub struct RowSink<T: Row, F> {
    reading: Reading<T>,
    hand: F,
}

impl<T: for<'a> FromRow<'a>, F: FnMut(T) -> Result<(), SinkFault>> RowSink<T, F> {
    /// A sink before the first page, with [`CELL_LIMITS`].
    #[must_use]
    pub fn new(hand: F) -> RowSink<T, F> {
        RowSink::with_limits(CELL_LIMITS, hand)
    }

    /// A sink before the first page, with limits on a cell with items: how many values are in it, and how many bytes of texts, blobs,
    /// varints and decimals.
    #[must_use]
    pub fn with_limits(limits: CellLimits, hand: F) -> RowSink<T, F> {
        RowSink { reading: Reading::new(limits), hand }
    }

    /// Names the columns of pages that come without metadata: those of [`Prepared::result`](crate::frame::Prepared::result). The decoder
    /// has to be given their types too, by [`Decoder::give`] of what [`table_of_specs`](crate::table_of_specs) makes of them.
    ///
    /// # Errors
    ///
    /// [`RowError::NoMemory`].
    pub fn name_columns(&mut self, columns: &[Spec]) -> Result<(), RowError> {
        self.reading.name_columns(Some(Names::of_specs(columns)?));
        Ok(())
    }

    /// Hands the rows of a piece of a stream to the closure. The frames of the piece may begin and end anywhere.
    ///
    /// # Errors
    ///
    /// [`RowError::Refused`] where the decoder refuses the stream; else why there is no row, after which the rest of the piece is lost, and
    /// the connection with it.
    pub fn feed(&mut self, decoder: &mut Decoder, piece: &[u8]) -> Result<(), RowError> {
        match feed(decoder, piece, self) {
            Fed::More => Ok(()),
            Fed::Refused { refusal, .. } => Err(refusal.into()),
            Fed::Fault { .. } => Err(self.take_error().unwrap_or(RowError::Stopped)),
        }
    }
}

impl<T: Row, F> fmt::Debug for RowSink<T, F> {
    fn fmt(&self, f: &mut fmt::Formatter<'_>) -> fmt::Result {
        f.debug_struct("RowSink").field("head", self.head()).finish_non_exhaustive()
    }
}

impl<T: Row, F> RowSink<T, F> {
    /// What the frame under way, or the one that ended last, says beside its cells.
    #[must_use]
    pub fn head(&self) -> &PageHead {
        &self.reading.head
    }

    /// Why it gave up, once: None where the closure did.
    pub fn take_error(&mut self) -> Option<RowError> {
        self.reading.error.take()
    }

    /// The closure.
    #[must_use]
    pub fn into_inner(self) -> F {
        self.hand
    }
}

impl<T: for<'a> FromRow<'a>, F: FnMut(T) -> Result<(), SinkFault>> RowSink<T, F> {
    /// Takes a scalar cell.
    #[inline(always)]
    fn take_scalar(&mut self, _at: u64, row: u32, column: u32, scalar: Scalar<'_>) -> Result<(), SinkFault> {
        match self.reading.take_cell(row, column, LentCell::Scalar(scalar))? {
            false => Ok(()),
            true => self.hand_row(),
        }
    }

    /// Takes any other event.
    #[inline(never)]
    fn take_other(&mut self, event: &Event<'_>) -> Result<(), SinkFault> {
        let is_last = match *event {
            Event::Null { row, column, level: 0 } => self.reading.take_cell(row, column, LentCell::Null)?,
            Event::Empty { row, column, level: 0 } => self.reading.take_cell(row, column, LentCell::Empty)?,
            _ => match self.reading.take_other(event, Place::Copied)? {
                Taken::Cell => self.reading.take_copied()?,
                _ => false,
            },
        };
        if is_last { self.hand_row() } else { Ok(()) }
    }

    /// Hands the row whose last cell came to the closure.
    #[inline(never)]
    fn hand_row(&mut self) -> Result<(), SinkFault> {
        let row = self.reading.end_row()?;
        (self.hand)(row)
    }
}

impl<T: for<'a> FromRow<'a>, F: FnMut(T) -> Result<(), SinkFault>> TakesCells for RowSink<T, F> {
    for_kinds!(implement);

    fn other(&mut self, _at: u64, event: &Event<'_>) -> Result<(), SinkFault> {
        self.take_other(event)
    }
}

impl<T: for<'a> FromRow<'a>, F: FnMut(T) -> Result<(), SinkFault>> Sink for RowSink<T, F> {
    #[inline(always)]
    fn take(&mut self, at: u64, event: &Event<'_>) -> Result<(), SinkFault> {
        CellSink(self).take(at, event)
    }
}
