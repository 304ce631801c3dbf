//! Columns of pages, in the layout of Apache Arrow: the cells of a page are put into arrays, and no event is made of them.
//!
//! The names and their forms are those of `cqlp::columns` in the package for cargo, dist/rust, but that [`Columns::new`] is given no allocator.
//!
//! ```
//! use cqlp::columns::{BatchLimits, Columns, PageColumns, Stop};
//! use cqlp::{Decoder, Event, Kind, Limits, Sink, SinkFault};
//!
//! /// What is no cell is passed over.
//! struct Rest;
//!
//! impl Sink for Rest {
//!     fn take(&mut self, _: u64, _: &Event<'_>) -> Result<(), SinkFault> {
//!         Ok(())
//!     }
//! }
//!
//! // a page of two rows, of which the second has no value, with one column, `c` of the table `k.t`, of int
//! let input = b"\x84\0\0\0\x08\0\0\0\x2b\0\0\0\x02\0\0\0\x01\0\0\0\x01\0\x01k\0\x01t\0\x01c\0\x09\0\0\0\x02\0\0\0\x04\0\0\0\x07\xff\xff\xff\xff";
//! let limits = BatchLimits { columns: 1, rows: 4096, bytes: 1 << 16, content: 16 };
//! let mut page = PageColumns::new(Columns::new(limits, &[Kind::Int])?, Rest);
//! let mut decoder = Decoder::new(Limits::default())?;
//! let mut used = 0;
//! loop {
//!     let filled = page.read(&mut decoder, &input[used..]);
//!     used += filled.used;
//!     match filled.stop {
//!         Stop::More => break,
//!         Stop::Full => page.columns.clear(), // after its rows were read
//!         Stop::Other => {}
//!         Stop::Failed => unreachable!(),
//!         Stop::Refused(refusal) => return Err(refusal.into()),
//!     }
//! }
//! let column = &page.columns.columns()[0];
//! assert_eq!((column.values(), column.validity()), (&[7, 0, 0, 0, 0, 0, 0, 0][..], &[0b01][..]));
//! assert_eq!((page.columns.rows(), used), (2, input.len()));
//! # Ok::<(), Box<dyn std::error::Error>>(())
//! ```

use crate::decoder::{Decoder, Refusal};
use crate::event::{Event, Sink, SinkFault};
use crate::names::{Kind, Reason};
use cqlp_sys as sys;
use std::cell::{Cell, UnsafeCell};
use std::error::Error;
use std::fmt;
use std::slice;

/// How large a batch may be.
#[derive(Clone, Copy, Debug, PartialEq, Eq)]
pub struct BatchLimits {
    /// How many columns.
    pub columns: u32,
    /// How many rows.
    pub rows: u32,
    /// With how many bytes of values in a column no further row begins; those of its last row come on top of it.
    pub bytes: u32,
    /// How many bytes one value may have.
    pub content: u32,
}

/// Why no columns are made.
#[derive(Clone, Copy, Debug, PartialEq, Eq)]
#[non_exhaustive]
pub enum MakeError {
    /// Values of one of the kinds have items.
    Unsupported,
    /// There are more columns than the limits say.
    TooManyColumns,
    /// There is not as much memory as the limits allow to be held.
    NoMemory,
    /// No kind has the number of one of the kinds, a [`Kind::Other`].
    BadKind,
}

impl fmt::Display for MakeError {
    fn fmt(&self, f: &mut fmt::Formatter<'_>) -> fmt::Result {
        f.write_str(match self {
            MakeError::Unsupported => "values with items",
            MakeError::TooManyColumns => "too many columns",
            MakeError::NoMemory => "no memory",
            MakeError::BadKind => "no kind has this number",
        })
    }
}

impl Error for MakeError {}

/// The cells of a column, in arrays as Apache Arrow lays them out. A bit of an array of bits is the least of its byte first.
///
/// They are lent until the next call that takes their [`Columns`] by `&mut`:
///
/// ```compile_fail,E0502
/// # use cqlp::columns::{BatchLimits, Columns};
/// # let limits = BatchLimits { columns: 1, rows: 1, bytes: 64, content: 16 };
/// let mut columns = Columns::new(limits, &[cqlp::Kind::Int]).unwrap();
/// let values = columns.columns()[0].values();
/// columns.clear();
/// println!("{values:?}");
/// ```
// A reference to one is lent by `Columns` alone, which it borrows: so what the pointers point to is there as long as `self` is.
#[repr(transparent)]
pub struct Column(sys::cqlp_column);

impl Column {
    /// The kind of its values.
    pub fn kind(&self) -> Kind {
        Kind::of(self.0.kind)
    }

    /// The values, one after the other, also zeros for cells without one: of booleans a bit each; numbers with their lowest byte first; of uuids 16
    /// bytes; of other kinds the bytes between the offsets. A date is the days from 1970 and 2^31 to them.
    pub fn values(&self) -> &[u8] {
        // SAFETY: the library says that this many bytes are there.
        unsafe { lent(self.0.values, self.0.size) }
    }

    /// Where each value begins in the bytes, and where the last one ends; none where all values have the same length.
    pub fn offsets(&self) -> &[u64] {
        // SAFETY: the library says that so many offsets are there.
        unsafe { lent(self.0.offsets, self.0.bounds) }
    }

    /// A bit for each cell: whether it has a value.
    pub fn validity(&self) -> &[u8] {
        // SAFETY: the library says that a bit for each cell is there.
        unsafe { lent(self.0.validity, self.0.cells.div_ceil(8)) }
    }

    /// A bit for each cell: whether it has a value of no bytes. Among values of a fixed length these have no other place, and count as having no
    /// value.
    pub fn empties(&self) -> &[u8] {
        // SAFETY: the library says that a bit for each cell is there.
        unsafe { lent(self.0.empties, self.0.cells.div_ceil(8)) }
    }

    /// How many cells it has.
    pub fn len(&self) -> usize {
        self.0.cells
    }

    /// Whether it has none.
    pub fn is_empty(&self) -> bool {
        self.len() == 0
    }
}

impl fmt::Debug for Column {
    fn fmt(&self, f: &mut fmt::Formatter<'_>) -> fmt::Result {
        f.debug_struct("Column")
            .field("kind", &self.kind())
            .field("values", &self.values())
            .field("offsets", &self.offsets())
            .field("validity", &self.validity())
            .field("empties", &self.empties())
            .finish()
    }
}

/// So many items, which lie at a place that may be null where there are none.
///
/// # Safety
///
/// They are there, and stay as they are for the lifetime.
unsafe fn lent<'a, T>(first: *const T, count: usize) -> &'a [T] {
    if count == 0 {
        return &[];
    }
    slice::from_raw_parts(first, count)
}

/// Rows of a page as columns: a batch of them, in memory that is taken once.
///
/// It may be sent to another thread between two calls, as a [`Decoder`] may. It is not `Sync`.
pub struct Columns {
    // The library's handle is not copied while it has columns, so it has a place of its own.
    handle: Box<UnsafeCell<sys::cqlp_columns>>,
    // Where the arrays of each column lie, as the library put it last; and whether no call since then may have changed that.
    views: UnsafeCell<Box<[Column]>>,
    are_current: Cell<bool>,
}

// SAFETY: include/cqlp.h lets a handle go to another thread between two calls. Nothing else has the pointers in `views`.
unsafe impl Send for Columns {}

impl Columns {
    /// With no rows, and a column for each of these kinds. This is the one call that takes memory: for each column `bytes` and `content`, 8 bytes for
    /// each row and one more, and three bits for each row.
    ///
    /// # Errors
    ///
    /// In this order: `TooManyColumns`; `BadKind`; `Unsupported` where values of one of the kinds have items; `NoMemory` where memory is refused.
    pub fn new(limits: BatchLimits, kinds: &[Kind]) -> Result<Columns, MakeError> {
        let handle = Box::new(UnsafeCell::new(sys::cqlp_columns::NONE));
        let numbers: Vec<u8> = kinds.iter().map(|kind| kind.number()).collect();
        let limits = sys::cqlp_batch_limits {
            columns: limits.columns,
            rows: limits.rows,
            bytes: limits.bytes,
            content: limits.content,
        };
        // SAFETY: each points to as much as its type and the number after it say, and the handle has no columns.
        match unsafe { sys::cqlp_columns_new(&limits, numbers.as_ptr(), numbers.len(), handle.get()) } {
            sys::CQLP_DONE => {}
            sys::CQLP_TOO_MANY_COLUMNS => return Err(MakeError::TooManyColumns),
            sys::CQLP_BAD_KIND => return Err(MakeError::BadKind),
            sys::CQLP_UNSUPPORTED => return Err(MakeError::Unsupported),
            _ => return Err(MakeError::NoMemory),
        }
        let views = kinds.iter().map(|_| Column(sys::cqlp_column::BLANK)).collect();
        Ok(Columns {
            handle,
            views: UnsafeCell::new(views),
            are_current: Cell::new(false),
        })
    }

    /// The columns. Where a row is under way, the first of them have a cell more than [`Columns::rows`] says.
    pub fn columns(&self) -> &[Column] {
        if !self.are_current.get() {
            self.refresh();
        }
        // SAFETY: `refresh` alone writes there, and only while the views are not current. Only a call that takes `&mut self` makes them outdated,
        // and before it what is lent of them is given back.
        unsafe { &*self.views.get() }
    }

    /// Asks the library where the arrays lie.
    fn refresh(&self) {
        // SAFETY: nothing of it is lent, since the views were not current after the last call that takes `&mut self`, and are lent only when they are.
        let views = unsafe { &mut *self.views.get() };
        for (at, view) in views.iter_mut().enumerate() {
            // SAFETY: both point to what their types say, and this call is on no other thread, since `Columns` is not `Sync`.
            let code = unsafe { sys::cqlp_columns_get(self.handle.get(), at, &mut view.0) };
            debug_assert_eq!(code, sys::CQLP_DONE);
        }
        self.are_current.set(true);
    }

    /// How many whole rows there are.
    pub fn rows(&self) -> usize {
        self.columns().last().map_or(0, Column::len)
    }

    /// One call of the library, which puts the event that is not taken, if it stops there.
    fn fill(&mut self, decoder: &mut Decoder, input: &[u8], event: &mut sys::cqlp_event) -> sys::cqlp_batch {
        let mut batch = sys::cqlp_batch::default();
        self.are_current.set(false);
        // SAFETY: each points to as much as its type and the number after it say, none is null, and none overlap. Both handles are made, and what was
        // lent of the columns is given back.
        let code = unsafe {
            sys::cqlp_columns_next(
                decoder.handle(),
                self.handle.get(),
                input.as_ptr(),
                input.len(),
                event,
                &mut batch,
            )
        };
        debug_assert_eq!(code, sys::CQLP_DONE);
        batch
    }

    /// Removes all rows, also one that is under way, and keeps the memory.
    pub fn clear(&mut self) {
        self.are_current.set(false);
        // SAFETY: it points to a handle, and what was lent of the columns is given back.
        let code = unsafe { sys::cqlp_columns_clear(self.handle.get()) };
        debug_assert_eq!(code, sys::CQLP_DONE);
    }
}

impl Drop for Columns {
    fn drop(&mut self) {
        // SAFETY: it points to a handle, and what was lent of the columns is given back.
        unsafe { sys::cqlp_columns_free(self.handle.get()) };
    }
}

impl fmt::Debug for Columns {
    fn fmt(&self, f: &mut fmt::Formatter<'_>) -> fmt::Result {
        f.debug_list().entries(self.columns()).finish()
    }
}

/// Why a call stops.
#[derive(Clone, Copy, Debug, PartialEq, Eq)]
pub enum Stop {
    /// All of the input was used, and more is wanted.
    More,
    /// A row begins for which there is no room: the columns are to be read and cleared.
    Full,
    /// The other sink got an event that the columns do not take.
    Other,
    /// The other sink failed at such an event.
    Failed,
    /// The stream is refused, here and at every later call.
    Refused(Refusal),
}

/// What a call made of the input.
#[derive(Clone, Copy, Debug, PartialEq, Eq)]
pub struct Filled {
    /// How many bytes of the input were used.
    pub used: usize,
    /// Why it stopped.
    pub stop: Stop,
}

/// The columns of a page, and a sink for the events that they do not take.
#[derive(Debug)]
pub struct PageColumns<S: Sink> {
    /// The columns.
    pub columns: Columns,
    /// The sink beside them.
    pub other: S,
}

impl<S: Sink> PageColumns<S> {
    /// These columns, with this sink beside them.
    pub fn new(columns: Columns, other: S) -> PageColumns<S> {
        PageColumns { columns, other }
    }

    /// Reads on: the next events of the input are cells that the columns take, up to the one that fills them or the first that they do not take, which
    /// the other sink gets. The columns take a cell that is the next one of its row, of its column's kind, whole, and not longer than a value may be.
    /// Columns that are full already use nothing. Calls of [`Decoder::decode`] and [`Decoder::batch`] and of this one may take turns.
    pub fn read(&mut self, decoder: &mut Decoder, input: &[u8]) -> Filled {
        let mut event = sys::cqlp_event::BLANK;
        let batch = self.columns.fill(decoder, input, &mut event);
        let stop = match batch.stop {
            sys::CQLP_STOP_MORE => Stop::More,
            sys::CQLP_STOP_FULL if batch.events == 0 => Stop::Full,
            sys::CQLP_STOP_FULL => {
                // SAFETY: the library put the event in its last call, and the decoder and the input are borrowed.
                let event = unsafe { Event::of(&event) };
                match self.other.take(event.at, &event) {
                    Ok(()) => Stop::Other,
                    Err(SinkFault) => Stop::Failed,
                }
            }
            _ => Stop::Refused(Refusal {
                at: batch.at,
                reason: Reason::of(batch.reason),
            }),
        };
        Filled { used: batch.used, stop }
    }
}
