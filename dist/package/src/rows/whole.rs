//! Rows of a page that is whole in memory.

use alloc::vec::{self, Vec};
use core::fmt;

use crate::cqlp_build_cells::CellLimits;
use crate::cqlp_decode::{Decoder, NewError};
use crate::cqlp_grammar::{Event, SinkFault};
use crate::cqlp_kind::Scalar;
use crate::cqlp_message::Spec;
use crate::cqlp_note::{Address, Header, Limits, Refusal};
use crate::cqlp_skip::Fed;
use crate::cqlp_type_tables::{TableError, table_of_specs};
use crate::rows::cell::{LentCell, Place, lend};
use crate::rows::cells::{CellReading, Columns, NotRead, RowCells, WhyNot};
use crate::rows::error::RowError;
use crate::rows::feed::{TakesCells, feed, for_kinds, implement};
use crate::rows::from_row::{FromRow, Row, read};
use crate::rows::reading::{Names, PageHead, Reading, Taken};
use crate::rows::sink::CELL_LIMITS;

/// How many rows are made at a time.
const BATCH: usize = 64;

/// The bytes of a header.
const HEADER: usize = 9;

/// The rows of a page: a frame that is whole in memory, its header first, of which the rows may lend texts and blobs. It is read by a
/// decoder with [`Limits::DEFAULT`]. A [`PageReader`] reads many pages with the memory of one decoder, and pages without metadata.
///
/// # Errors
///
/// As [`PageReader::rows`], and [`RowError::NoMemory`] where there is none for a decoder.
pub fn page_rows<'a, T: FromRow<'a>>(frame: &'a [u8]) -> Result<PageRows<'a, PageReader, T>, RowError> {
    let reader = PageReader::new(Limits::DEFAULT).map_err(|_| RowError::NoMemory)?;
    PageRows::begin(reader, None, frame)
}

/// Reads pages that are whole in memory, one after the other.
pub struct PageReader {
    decoder: Decoder,
    asked: Limits,
    limits: CellLimits,
    given: Option<Given>,
}

/// The columns of pages that come without metadata.
struct Given {
    names: Names,
    columns: Columns,
}

impl PageReader {
    /// A reader with the memory that these limits say, all of which it takes.
    ///
    /// # Errors
    ///
    /// As [`Decoder::new`].
    pub fn new(limits: Limits) -> Result<PageReader, NewError> {
        Ok(PageReader { decoder: Decoder::new(limits)?, asked: limits, limits: CELL_LIMITS, given: None })
    }

    /// This reader, with limits on a cell with items: how many values are in it, and how many bytes.
    #[must_use]
    pub fn with_cell_limits(self, limits: CellLimits) -> PageReader {
        PageReader { limits, ..self }
    }

    /// Gives the columns of pages that come without metadata, from now on: those of
    /// [`Prepared::result`](crate::frame::Prepared::result). Section 4.2.5.2 of `native_protocol_v4.spec`.
    ///
    /// # Errors
    ///
    /// [`TableError`], also where the types pass the limits of the decoder.
    pub fn give(&mut self, specs: &[Spec]) -> Result<(), TableError> {
        let table = table_of_specs(specs)?;
        let names = Names::of_specs(specs).map_err(|_| TableError::NoMemory)?;
        let columns = Columns::of_table(&table).map_err(|_| TableError::NoMemory)?;
        self.decoder.restart();
        self.decoder.give(table).map_err(|_| TableError::TooLong)?;
        self.given = Some(Given { names, columns });
        Ok(())
    }

    /// The rows of a frame, its header first. Bytes after the frame are not looked at.
    ///
    /// # Errors
    ///
    /// [`RowError::Refused`] where the decoder refuses what is before the rows, [`RowError::Cut`] where the bytes end there;
    /// [`RowError::Server`] for an ERROR, [`RowError::NoPage`] for another frame that is no page; and [`RowError::MissingColumn`],
    /// [`RowError::TwoFields`], [`RowError::TooFewColumns`] or [`RowError::NoNames`] where the columns are none of `T`. Each row may have
    /// another error.
    pub fn rows<'a, 'r, T: FromRow<'a>>(&'r mut self, frame: &'a [u8]) -> Result<PageRows<'a, &'r mut PageReader, T>, RowError> {
        PageRows::begin(self, None, frame)
    }

    /// The rows of the body of a frame with this header.
    ///
    /// # Errors
    ///
    /// As [`PageReader::rows`]; and [`RowError::NoPage`] where the header is not [`lawful`](Header::lawful).
    pub fn body_rows<'a, 'r, T: FromRow<'a>>(
        &'r mut self,
        header: &Header,
        body: &'a [u8],
    ) -> Result<PageRows<'a, &'r mut PageReader, T>, RowError> {
        let header = header.to_bytes().ok_or(RowError::NoPage)?;
        PageRows::begin(self, Some(header), body)
    }
}

impl fmt::Debug for PageReader {
    fn fmt(&self, f: &mut fmt::Formatter<'_>) -> fmt::Result {
        f.debug_struct("PageReader").field("limits", &self.limits).finish_non_exhaustive()
    }
}

impl<R, T: Row> fmt::Debug for PageRows<'_, R, T> {
    fn fmt(&self, f: &mut fmt::Formatter<'_>) -> fmt::Result {
        f.debug_struct("PageRows").field("head", &self.sink.reading.head).finish_non_exhaustive()
    }
}

impl AsMut<PageReader> for PageReader {
    fn as_mut(&mut self) -> &mut PageReader {
        self
    }
}

/// The rows of a page, and an error where one cannot be made, which is the last then. A row is made when it is asked for; of a frame
/// that is not whole, or whose contents may come in parts, up to 64 are made at a time.
#[must_use = "rows are made when they are asked for"]
pub struct PageRows<'a, R, T: Row> {
    reader: R,
    sink: WholeSink<'a, T>,
    /// The bytes that the decoder has not used; or those up to the frame's end, from the next cell on.
    rest: &'a [u8],
    /// What the cells are read by, and how many rows are left, where they are read without the decoder.
    cells: CellReading,
    in_order: bool,
    left: u32,
    /// The index at which the frame ends.
    end: usize,
    /// The rows of a batch that were not asked for yet.
    ready: vec::IntoIter<T>,
    error: Option<RowError>,
}

impl<'a, R: AsMut<PageReader>, T: FromRow<'a>> PageRows<'a, R, T> {
    /// Reads up to the first row.
    fn begin(mut reader: R, header: Option<[u8; HEADER]>, bytes: &'a [u8]) -> Result<Self, RowError> {
        let PageReader { decoder, asked, limits, given } = reader.as_mut();
        if let Some(table) = decoder.restart() {
            decoder.give(table).map_err(|_| RowError::NoNames)?;
        }
        let mut reading = Reading::new(*limits);
        reading.name_columns(given.as_ref().map(|given| given.names.clone()));
        let base = header.map_or(0, |_| HEADER as u64);
        let mut sink = WholeSink { reading, page: bytes, base, made: Vec::new(), over: false };
        if let Some(header) = header {
            let _ = feed(decoder, &header, &mut sink);
        }
        let cells = CellReading { columns: Columns::default(), limits: *asked, most: limits.events };
        let mut rows =
            PageRows { reader, sink, rest: bytes, cells, in_order: false, left: 0, end: 0, ready: Vec::new().into_iter(), error: None };
        if !rows.sink.over {
            rows.read_on();
        }
        match rows.error.take() {
            Some(error) => Err(error),
            None => {
                let mut rows = rows.check_head()?;
                rows.begin_cells()?;
                Ok(rows)
            }
        }
    }

    /// Takes over from the decoder at the first row, where the frame is whole and its contents come whole.
    fn begin_cells(&mut self) -> Result<(), RowError> {
        let head = self.head();
        let (columns, rows) = (head.columns as usize, head.rows);
        let end = head.header.map_or(u64::MAX, |header| u64::from(header.length) + HEADER as u64 - self.sink.base);
        let left = usize::try_from(end).ok().and_then(|end| self.sink.page.get(self.used()..end));
        // Each cell of a row takes four bytes at least.
        let Some(left) = left.filter(|left| !self.cells.limits.parts && columns <= left.len() / 4) else { return Ok(()) };
        let found = self.find_columns(columns)?;
        if found.kinds.len() == columns {
            self.end = self.used() + left.len();
            (self.cells.columns, self.rest) = (found, left);
            self.in_order = self.sink.reading.is_in_order();
            self.left = if columns == 0 { 0 } else { rows };
            self.sink.over = true;
            self.sink.reading.head.ended = self.left == 0;
        }
        Ok(())
    }

    /// How many bytes the decoder has used.
    fn used(&self) -> usize {
        self.sink.page.len() - self.rest.len()
    }

    /// The columns, this many.
    fn find_columns(&mut self, count: usize) -> Result<Columns, RowError> {
        let is_bare = self.sink.reading.is_bare() || !self.cells.limits.types;
        let PageReader { decoder, given, .. } = self.reader.as_mut();
        match given {
            _ if !is_bare => Columns::of_table(decoder.table()),
            Some(given) if given.columns.kinds.len() == count => given.columns.try_clone(),
            _ => Columns::untyped(count),
        }
    }

    /// The next row of those that are left.
    #[inline(always)]
    fn next_row(&mut self) -> Result<T, RowError> {
        if !self.in_order {
            return self.next_by_columns();
        }
        let mut cells = RowCells::new(self.rest, &self.cells);
        match read::<T>(&mut cells) {
            Ok(Some(row)) => {
                self.rest = cells.rest;
                if self.cells.columns.kinds.len() > T::WIDTH {
                    self.pass_over()?;
                }
                self.end_row();
                Ok(row)
            }
            Ok(None) => self.next_by_columns(),
            Err(why) => Err(self.fail(why)),
        }
    }

    #[inline(always)]
    fn end_row(&mut self) {
        self.left -= 1;
        if self.left == 0 {
            self.sink.reading.head.ended = true;
        }
    }

    /// Passes over the cells that are no fields'.
    #[inline(never)]
    fn pass_over(&mut self) -> Result<(), RowError> {
        let mut cells = RowCells::new(self.rest, &self.cells);
        match cells.pass_over(T::WIDTH) {
            Ok(()) => {
                self.rest = cells.rest;
                Ok(())
            }
            Err(why) => Err(self.fail(why)),
        }
    }

    /// The next row, whose cells are set one by one.
    #[inline(never)]
    fn next_by_columns(&mut self) -> Result<T, RowError> {
        let (row, mut rest) = (self.row(), self.rest);
        for column in 0..self.cells.columns.kinds.len() {
            let reading = &mut self.sink.reading;
            let taken = if reading.is_passed_over(column as u32) {
                self.cells.pass(rest, column).map(|later| (Ok(false), later))
            } else {
                self.cells.lend(rest, column, |cell| reading.take_cell(row, column as u32, cell))
            };
            match taken {
                Ok((Ok(_), later)) => rest = later,
                Ok((Err(SinkFault), _)) => return Err(self.stop()),
                Err(why) => return Err(self.fail(why)),
            }
        }
        match self.sink.reading.end_row() {
            Ok(row) => {
                self.rest = rest;
                self.end_row();
                Ok(row)
            }
            Err(SinkFault) => Err(self.stop()),
        }
    }

    /// The row under way.
    fn row(&self) -> u32 {
        self.sink.reading.head.rows - self.left
    }

    /// Ends the rows at a cell.
    #[cold]
    #[inline(never)]
    fn fail(&mut self, NotRead { column, left, why }: NotRead) -> RowError {
        let row = self.row();
        match why {
            WhyNot::Refused(why) => {
                self.left = 0;
                Refusal { at: self.sink.base + (self.end - left) as u64, why }.into()
            }
            WhyNot::Mismatch(why) => {
                let SinkFault = self.sink.reading.give_up_cell(row, column as u32, why);
                self.stop()
            }
            WhyNot::TooLarge => {
                self.left = 0;
                RowError::TooLarge { row, column: column as u32 }
            }
        }
    }

    /// Ends the rows at the error that was kept.
    #[cold]
    fn stop(&mut self) -> RowError {
        self.left = 0;
        self.sink.reading.error.take().unwrap_or(RowError::Stopped)
    }

    /// Itself, if the frame is a page.
    fn check_head(self) -> Result<Self, RowError> {
        match &self.sink.reading.head {
            head if head.is_page() => Ok(self),
            PageHead { error: Some((code, message)), .. } => Err(RowError::Server { code: *code, message: message.clone() }),
            _ => Err(RowError::NoPage),
        }
    }

    /// What the frame says beside its cells.
    #[must_use]
    pub fn head(&self) -> &PageHead {
        &self.sink.reading.head
    }

    /// Reads on, until rows are ready or the frame ends.
    #[inline(never)]
    fn read_on(&mut self) {
        let rest = self.rest;
        match feed(&mut self.reader.as_mut().decoder, rest, &mut self.sink) {
            Fed::More => self.error = Some(RowError::Cut { len: self.sink.page.len() }),
            Fed::Refused { refusal, .. } => self.error = Some(refusal.into()),
            Fed::Fault { used } => {
                self.rest = &rest[used..];
                self.error = self.sink.reading.error.take();
            }
        }
        self.sink.over |= self.error.is_some();
        self.ready = core::mem::take(&mut self.sink.made).into_iter();
    }
}

impl<'a, R: AsMut<PageReader>, T: FromRow<'a>> Iterator for PageRows<'a, R, T> {
    type Item = Result<T, RowError>;

    #[inline]
    fn next(&mut self) -> Option<Result<T, RowError>> {
        if self.left > 0 {
            return Some(self.next_row());
        }
        self.next_ready()
    }
}

impl<'a, R: AsMut<PageReader>, T: FromRow<'a>> PageRows<'a, R, T> {
    /// The next row that the decoder's events led to.
    #[inline(never)]
    fn next_ready(&mut self) -> Option<Result<T, RowError>> {
        loop {
            if let Some(row) = self.ready.next() {
                return Some(Ok(row));
            }
            if self.sink.over {
                return self.error.take().map(Err);
            }
            self.read_on();
        }
    }
}

/// Makes rows of a page, some at a time: it gives up after them, after the head of the page, and at the end of the frame.
struct WholeSink<'a, T: Row> {
    reading: Reading<T>,
    page: &'a [u8],
    /// The offset at which the page begins.
    base: u64,
    /// The rows that were made, up to a batch.
    made: Vec<T>,
    over: bool,
}

impl<'a, T: FromRow<'a>> WholeSink<'a, T> {
    /// Where the content of a value at an offset begins, after its length.
    #[inline(always)]
    fn content_at(&self, at: u64) -> u32 {
        (at - self.base) as u32 + 4
    }

    /// Takes a scalar cell.
    #[inline(always)]
    fn take_scalar(&mut self, at: u64, row: u32, column: u32, scalar: Scalar<'_>) -> Result<(), SinkFault> {
        let scalar = lend(self.page, self.content_at(at), &scalar);
        match self.reading.take_cell(row, column, LentCell::Scalar(scalar))? {
            false => Ok(()),
            true => self.keep_row(),
        }
    }

    /// Takes any other event.
    #[inline(never)]
    fn take_other(&mut self, at: u64, event: &Event<'_>) -> Result<(), SinkFault> {
        let is_last = match *event {
            Event::Null { row, column, level: 0 } => self.reading.take_cell(row, column, LentCell::Null)?,
            Event::Empty { row, column, level: 0 } => self.reading.take_cell(row, column, LentCell::Empty)?,
            _ => self.take_part(at, event)?,
        };
        if is_last { self.keep_row() } else { Ok(()) }
    }

    /// Takes an event that is of no cell, or of one with items, and answers whether it ends a row.
    fn take_part(&mut self, at: u64, event: &Event<'_>) -> Result<bool, SinkFault> {
        let place = match event {
            Event::Leaf { .. } => Place::Page(self.content_at(at)),
            _ => Place::Copied,
        };
        match self.reading.take_other(event, place)? {
            Taken::Part => Ok(false),
            Taken::Head => Err(SinkFault),
            Taken::Cell => self.reading.take_items(self.page),
            Taken::Frame => {
                self.over = true;
                Err(SinkFault)
            }
        }
    }

    /// Keeps the row whose last cell came, and gives up where they are enough.
    #[inline(never)]
    fn keep_row(&mut self) -> Result<(), SinkFault> {
        let row = self.reading.end_row()?;
        if self.made.capacity() == 0 {
            self.made.try_reserve_exact(BATCH).map_err(|_| self.reading.give_up(RowError::NoMemory))?;
        }
        self.made.push(row);
        if self.made.len() < BATCH { Ok(()) } else { Err(SinkFault) }
    }
}

impl<'a, T: FromRow<'a>> TakesCells for WholeSink<'a, T> {
    for_kinds!(implement);

    fn other(&mut self, at: u64, event: &Event<'_>) -> Result<(), SinkFault> {
        self.take_other(at, event)
    }
}
