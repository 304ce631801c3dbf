//! Pages whose types were given to the decoder, as the frames that they are. Written by hand, and not proved.

use core::fmt;

use crate::cqlp_build_cells::{CellBuilder, CellError, CellLimits, ends_cell};
use crate::cqlp_encode::{BindError, raw_value};
use crate::cqlp_grammar::{Event, Sink, SinkFault};
use crate::cqlp_kind::Scalar;
use crate::cqlp_message::Spec;
use crate::cqlp_note::Field;
use crate::cqlp_value::{Atom, Value};

/// The flag of a page that does not describe its columns. Section 4.2.5.2 of `native_protocol_v4.spec`.
const NO_METADATA: i32 = 4;

/// A [`Sink`] that hands the events of frames on, but those of the cells of a page without metadata whose types were given to the decoder
/// ([`Decoder::give`](crate::Decoder::give)): of these it hands on the raw cells that the frame has. So a
/// [`FrameBuilder`](crate::frame::FrameBuilder) and a [`Composer`](crate::frame::Composer) behind it take such a page, as its frame's value
/// has it. A content is what the encoder writes for the value: of a boolean that is true, 01.
///
/// It holds one cell within its limits.
pub struct RawCells<'a, S> {
    sink: S,
    columns: &'a [Spec],
    cell: CellBuilder,
    /// Where the cell under way begins: its offset, row and column.
    begin: Option<(u64, u32, u32)>,
    /// Whether the page under way has no metadata.
    is_bare: bool,
    error: Option<CellError>,
}

impl<'a, S: Sink> RawCells<'a, S> {
    /// In front of a sink, for pages of these columns: those of [`Prepared::result`](crate::frame::Prepared::result).
    #[must_use]
    pub fn new(columns: &'a [Spec], limits: CellLimits, sink: S) -> RawCells<'a, S> {
        RawCells { sink, columns, cell: CellBuilder::new(limits), begin: None, is_bare: false, error: None }
    }

    /// The sink behind it.
    #[must_use]
    pub fn into_inner(self) -> S {
        self.sink
    }

    /// Why a cell was not handed on, once: None where the sink behind it gave up.
    pub fn take_error(&mut self) -> Option<CellError> {
        self.error.take()
    }

    /// Takes an event of a cell whose type was given, and at its end hands the raw cell on.
    fn take_typed(&mut self, at: u64, event: &Event<'_>) -> Result<(), SinkFault> {
        let place = self.begin.or_else(|| place_of(event).map(|(row, column)| (at, row, column)));
        self.begin = place;
        self.cell.take(event).map_err(|why| self.give_up(why))?;
        let Some((at, row, column)) = place.filter(|_| ends_cell(event)) else { return Ok(()) };
        self.begin = None;
        let of = self.columns.get(column as usize).map(|spec| &spec.tree);
        let value = self.cell.finish(of).map_err(|why| self.give_up(why))?;
        let raw = raw_value(&value, of).map_err(|why| {
            self.give_up(match why {
                BindError::NoMemory => CellError::NoMemory,
                BindError::TooLong => CellError::TooManyBytes,
                BindError::Unfit => CellError::NoValue,
            })
        })?;
        self.sink.take(
            at,
            &match &raw {
                Value::Leaf(Atom::Raw(bytes)) => Event::Leaf { row, column, level: 0, scalar: Scalar::Raw(bytes) },
                Value::Null => Event::Null { row, column, level: 0 },
                _ => Event::Empty { row, column, level: 0 },
            },
        )
    }

    fn give_up(&mut self, why: CellError) -> SinkFault {
        self.cell.clear();
        (self.begin, self.error) = (None, Some(why));
        SinkFault
    }
}

/// The row and the column of an event of a cell that names them.
fn place_of(event: &Event<'_>) -> Option<(u32, u32)> {
    match *event {
        Event::Leaf { row, column, .. }
        | Event::Null { row, column, .. }
        | Event::Empty { row, column, .. }
        | Event::Enter { row, column, .. } => Some((row, column)),
        _ => None,
    }
}

impl<S> fmt::Debug for RawCells<'_, S> {
    fn fmt(&self, f: &mut fmt::Formatter<'_>) -> fmt::Result {
        f.debug_struct("RawCells").field("columns", &self.columns.len()).field("error", &self.error).finish_non_exhaustive()
    }
}

impl<S: Sink> Sink for RawCells<'_, S> {
    fn take(&mut self, at: u64, event: &Event<'_>) -> Result<(), SinkFault> {
        match *event {
            Event::Int { field: Field::MetaFlags, value } => self.is_bare = value & NO_METADATA != 0,
            Event::Leaf { level: 0, scalar: Scalar::Raw(_), .. } => {}
            Event::Leaf { .. } | Event::Null { .. } | Event::Empty { .. } | Event::Enter { .. } | Event::Leave { .. } if self.is_bare => {
                return self.take_typed(at, event);
            }
            _ => {}
        }
        self.sink.take(at, event)
    }
}
