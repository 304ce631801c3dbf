//! The cells of a row of a page that is whole in memory, each read where it lies.

use alloc::vec::Vec;
use core::cell::Cell;

use crate::cqlp_kind::{Kind, Node, Scalar};
use crate::cqlp_note::{Limits, Reason};
use crate::cqlp_read_value::{CellContent, read_cell};
use crate::cqlp_type::TypeTable;
use crate::rows::cell::LentCell;
use crate::rows::error::{Mismatch, RowError};
use crate::rows::from_cell::FromCell;
use crate::rows::items::{Checked, LentItems, address_of};
use crate::rows::walk::{Fault, Walk};

/// Why a row is not read, and at which column.
#[derive(Debug)]
pub struct NotRead {
    pub(crate) column: usize,
    /// How many bytes there are from what is refused on.
    pub(crate) left: usize,
    pub(crate) why: WhyNot,
}

/// Why a cell is not read.
#[derive(Debug)]
pub(crate) enum WhyNot {
    /// A decoder refuses the page at the cell, or in it.
    Refused(Reason),
    /// The cell is no value of its field's type.
    Mismatch(Mismatch),
    /// More values are in the cell than are allowed.
    TooLarge,
}

/// The columns of a page.
#[derive(Debug, Default)]
pub(crate) struct Columns {
    pub(crate) kinds: Vec<Kind>,
    /// Their types, each before its inner ones, and the place of each column's. Both are empty where no column has items.
    types: Vec<Node>,
    places: Vec<u32>,
}

impl Columns {
    /// The columns of these types, which stand side by side in a table.
    pub(crate) fn of_table(table: &TypeTable) -> Result<Columns, RowError> {
        let mut columns = Columns::default();
        columns.kinds.try_reserve_exact(table.roots() as usize).map_err(|_| RowError::NoMemory)?;
        let mut place = 0;
        while let Some(node) = table.node(place) {
            columns.kinds.push(node.kind);
            place += node.span.max(1);
        }
        if !columns.kinds.iter().all(|kind| kind.is_scalar()) {
            columns.keep_types(table)?;
        }
        Ok(columns)
    }

    fn keep_types(&mut self, table: &TypeTable) -> Result<(), RowError> {
        self.types.try_reserve_exact(table.len() as usize).map_err(|_| RowError::NoMemory)?;
        self.places.try_reserve_exact(self.kinds.len()).map_err(|_| RowError::NoMemory)?;
        self.types.extend((0..table.len()).map_while(|place| table.node(place)));
        let mut place = 0;
        for _ in 0..self.kinds.len() {
            self.places.push(place);
            place += self.types.get(place as usize).map_or(1, |node| node.span.max(1));
        }
        Ok(())
    }

    /// As many columns without types.
    pub(crate) fn untyped(count: usize) -> Result<Columns, RowError> {
        let mut columns = Columns::default();
        columns.kinds.try_reserve_exact(count).map_err(|_| RowError::NoMemory)?;
        columns.kinds.resize(count, Kind::Raw);
        Ok(columns)
    }

    pub(crate) fn try_clone(&self) -> Result<Columns, RowError> {
        Ok(Columns { kinds: copy(&self.kinds)?, types: copy(&self.types)?, places: copy(&self.places)? })
    }
}

fn copy<T: Copy>(items: &[T]) -> Result<Vec<T>, RowError> {
    let mut copy = Vec::new();
    copy.try_reserve_exact(items.len()).map_err(|_| RowError::NoMemory)?;
    copy.extend_from_slice(items);
    Ok(copy)
}

/// What the cells of a page are read by.
#[derive(Debug)]
pub(crate) struct CellReading {
    pub(crate) columns: Columns,
    pub(crate) limits: Limits,
    /// How many values may be in a cell that a field is read from.
    pub(crate) most: u32,
}

/// The cells of a row that are still to be read.
#[derive(Clone, Copy, Debug)]
pub struct RowCells<'a, 's> {
    /// The bytes from the next cell on, to the end of the frame.
    pub(crate) rest: &'a [u8],
    /// The kinds of the columns.
    kinds: &'s [Kind],
    reading: &'s CellReading,
}

impl<'a, 's> RowCells<'a, 's> {
    pub(crate) fn new(rest: &'a [u8], reading: &'s CellReading) -> Self {
        RowCells { rest, kinds: &reading.columns.kinds, reading }
    }

    /// The first cells, this many, which there are.
    #[inline(always)]
    #[must_use]
    pub fn first(self, width: usize) -> Self {
        RowCells { kinds: &self.kinds[..width], ..self }
    }

    /// Goes on after these cells.
    #[inline(always)]
    pub fn pass(&mut self, cells: RowCells<'a, '_>) {
        self.rest = cells.rest;
    }

    /// The value of the next cell, that of this column.
    ///
    /// # Errors
    ///
    /// Why it is not read.
    #[inline(always)]
    pub fn take<T: FromCell<'a>>(&mut self, column: usize) -> Result<T, NotRead> {
        if is_known::<T>(self.kinds[column]) {
            if let Some((cell, rest)) = front(&self.reading.limits, T::KIND.unwrap_or(Kind::Raw), self.rest) {
                let value = T::from_cell(cell).map_err(|why| mismatch(column, why))?;
                self.rest = rest;
                return Ok(value);
            }
            if let (Some(null), Some(rest)) = (T::null(), after_null(self.rest)) {
                self.rest = rest;
                return Ok(null);
            }
        }
        if const { T::KIND.is_none() } {
            let bytes = self.rest;
            if let Some((place, content, rest)) = self.reading.few_items(bytes, column) {
                let checked = self.reading.begin(bytes);
                if let Some(items) = LentItems::lying(&checked, place, content) {
                    items.pass_front(&checked, address_of(bytes));
                    return match T::from_cell(LentCell::Items(items)) {
                        Ok(value) if checked.up_to.get() == address_of(rest) => {
                            self.rest = rest;
                            Ok(value)
                        }
                        Ok(value) => {
                            self.reading.check(bytes, column, content, u32::MAX)?;
                            self.rest = rest;
                            Ok(value)
                        }
                        Err(why) => Err(self.reading.mismatch_in(bytes, column, content, why)),
                    };
                }
            }
        }
        let (value, rest) = self.reading.read_rare(self.rest, column)?;
        self.rest = rest;
        Ok(value)
    }

    /// The same for a type that is wide or not: for a wide one, what takes many instructions is compiled once for each type of a field.
    ///
    /// # Errors
    ///
    /// As [`RowCells::take`].
    #[inline(always)]
    pub fn take_of<const WIDE: bool, T: FromCell<'a>>(&mut self, column: usize) -> Result<T, NotRead> {
        if const { WIDE && !is_short::<T>() } {
            let (value, rest) = take_apart(self.reading, self.rest, column)?;
            self.rest = rest;
            Ok(value)
        } else {
            self.take(column)
        }
    }

    /// Passes over the cells from this column on.
    #[inline(never)]
    pub(crate) fn pass_over(&mut self, from: usize) -> Result<(), NotRead> {
        for column in from..self.kinds.len() {
            self.rest = self.reading.pass(self.rest, column)?;
        }
        Ok(())
    }
}

/// Whether the kind from which a type is read the fastest has contents of one length, which takes few instructions to read.
const fn is_short<'a, T: FromCell<'a>>() -> bool {
    match T::KIND {
        Some(kind) => size_of(kind).is_some(),
        None => false,
    }
}

/// The value of the cell of this column at the front of these bytes, and the bytes after it.
#[inline(never)]
fn take_apart<'a, T: FromCell<'a>>(reading: &CellReading, bytes: &'a [u8], column: usize) -> Result<(T, &'a [u8]), NotRead> {
    let mut cells = RowCells::new(bytes, reading);
    let value = cells.take(column)?;
    Ok((value, cells.rest))
}

/// Whether a type is read the fastest from cells of this kind.
#[inline(always)]
fn is_known<'a, T: FromCell<'a>>(kind: Kind) -> bool {
    T::KIND == Some(kind) && kind.is_scalar()
}

#[cold]
#[inline(never)]
fn mismatch(column: usize, why: Mismatch) -> NotRead {
    NotRead { column, left: 0, why: WhyNot::Mismatch(why) }
}

/// How many bytes each content of this kind has, where all have as many.
#[inline(always)]
const fn size_of(kind: Kind) -> Option<u32> {
    match kind {
        Kind::Bigint | Kind::Counter | Kind::Timestamp | Kind::Time | Kind::Double => Some(8),
        Kind::Int | Kind::Date | Kind::Float => Some(4),
        Kind::Smallint => Some(2),
        Kind::Tinyint | Kind::Boolean => Some(1),
        Kind::Uuid | Kind::Timeuuid => Some(16),
        _ => None,
    }
}

/// The bytes after the null at the front of these bytes.
#[inline(always)]
fn after_null(bytes: &[u8]) -> Option<&[u8]> {
    match bytes {
        [0x80..=0xff, _, _, _, rest @ ..] => Some(rest),
        _ => None,
    }
}

/// The scalar at the front of these bytes, and those after it, or no bytes where the kind is of texts or the like. None for the rest: null,
/// and what is refused.
#[inline(always)]
pub(crate) fn front<'a>(limits: &Limits, kind: Kind, bytes: &'a [u8]) -> Option<(LentCell<'a, 'static>, &'a [u8])> {
    if let Some(size) = size_of(kind) {
        // One comparison says all of a length that is known before. It is not past the limits, which allow 32 bytes.
        let (cell, rest) = bytes.split_at_checked(4 + size as usize)?;
        let (len, content) = cell.split_first_chunk::<4>()?;
        if *len != size.to_be_bytes() {
            return None;
        }
        let scalar = Scalar::from_bytes(kind, content)?.ok()?;
        return Some((LentCell::Scalar(scalar), rest));
    }
    let cell = read_cell(limits, kind, bytes).ok()?;
    match cell.content {
        CellContent::Scalar(scalar) => Some((LentCell::Scalar(scalar), &bytes[cell.used..])),
        CellContent::Empty => Some((LentCell::Empty, &bytes[cell.used..])),
        CellContent::Null | CellContent::Items(_) => None,
    }
}

/// The value at the front of these bytes, of the kind from which the type is read the fastest, and the bytes after it.
#[inline(always)]
pub(crate) fn read_known<'a, T: FromCell<'a>>(limits: &Limits, bytes: &'a [u8]) -> Result<(T, &'a [u8]), NotRead> {
    match front(limits, T::KIND.unwrap_or(Kind::Raw), bytes) {
        Some((cell, rest)) => match T::from_cell(cell) {
            Ok(value) => Ok((value, rest)),
            Err(why) => Err(mismatch(0, why)),
        },
        None => read_slowly(limits, bytes),
    }
}

#[cold]
#[inline(never)]
fn read_slowly<'a, T: FromCell<'a>>(limits: &Limits, bytes: &'a [u8]) -> Result<(T, &'a [u8]), NotRead> {
    let refused = |why| NotRead { column: 0, left: bytes.len(), why: WhyNot::Refused(why) };
    let cell = read_cell(limits, T::KIND.unwrap_or(Kind::Raw), bytes).map_err(refused)?;
    let value = T::from_cell(lend(cell.content)).map_err(|why| mismatch(0, why))?;
    Ok((value, &bytes[cell.used..]))
}

/// A cell without items, lent.
fn lend(content: CellContent<'_>) -> LentCell<'_, 'static> {
    match content {
        CellContent::Scalar(scalar) => LentCell::Scalar(scalar),
        CellContent::Empty => LentCell::Empty,
        CellContent::Null | CellContent::Items(_) => LentCell::Null,
    }
}

impl CellReading {
    /// The content of the cell of this column at the front of these bytes, the place of its type, and the bytes after it. None of a cell
    /// without items, of one that is refused, and of one that may have more values than are allowed.
    #[inline(always)]
    fn few_items<'a>(&self, bytes: &'a [u8], column: usize) -> Option<(u32, &'a [u8], &'a [u8])> {
        if self.columns.kinds[column].is_scalar() {
            return None;
        }
        let (len, after) = bytes.split_first_chunk()?;
        let len = u32::from_be_bytes(*len);
        // Each value takes four bytes at least, so few cells can have too many. No content is as long as a negative length says.
        if len == 0 || len / 4 >= self.most {
            return None;
        }
        let (content, rest) = after.split_at_checked(len as usize)?;
        (len <= i32::MAX as u32).then_some((*self.columns.places.get(column)?, content, rest))
    }

    /// The check of a cell at the front of these bytes, of which nothing is read.
    #[inline(always)]
    fn begin(&self, bytes: &[u8]) -> Checked<'_> {
        Checked { limits: &self.limits, types: &self.columns.types, up_to: Cell::new(address_of(bytes)) }
    }

    /// Why a cell with this content has no value, unless a decoder refuses it.
    #[cold]
    #[inline(never)]
    fn mismatch_in(&self, bytes: &[u8], column: usize, content: &[u8], why: Mismatch) -> NotRead {
        self.check(bytes, column, content, u32::MAX).err().unwrap_or_else(|| mismatch(column, why))
    }

    /// The value of the cell of this column at the front of these bytes, and the bytes after it.
    #[cold]
    #[inline(never)]
    fn read_rare<'a, T: FromCell<'a>>(&self, bytes: &'a [u8], column: usize) -> Result<(T, &'a [u8]), NotRead> {
        let (value, rest) = self.lend(bytes, column, T::from_cell)?;
        Ok((value.map_err(|why| mismatch(column, why))?, rest))
    }

    /// Lends the cell of this column at the front of these bytes to a closure, and answers what that does and the bytes after the cell. A
    /// refusal of any byte of the cell comes before the answer.
    #[inline]
    pub(crate) fn lend<'a, R>(
        &self,
        bytes: &'a [u8],
        column: usize,
        take: impl FnOnce(LentCell<'a, '_>) -> R,
    ) -> Result<(R, &'a [u8]), NotRead> {
        let refused = |why| NotRead { column, left: bytes.len(), why: WhyNot::Refused(why) };
        let kind = self.columns.kinds[column];
        // What has items is read as a list: the compiler leaves the scalars out then.
        let read = if kind.is_scalar() { read_cell(&self.limits, kind, bytes) } else { read_cell(&self.limits, Kind::List, bytes) };
        let cell = read.map_err(refused)?;
        let rest = &bytes[cell.used..];
        let CellContent::Items(content) = cell.content else { return Ok((take(lend(cell.content)), rest)) };
        // Each value takes four bytes at least, so few cells can have too many.
        if content.len() / 4 >= self.most as usize {
            self.check(bytes, column, content, self.most)?;
        }
        let checked = self.begin(bytes);
        match LentItems::lying(&checked, self.columns.places[column], content) {
            Some(items) => {
                items.pass_front(&checked, address_of(bytes));
                let answer = take(LentCell::Items(items));
                if checked.up_to.get() != address_of(rest) {
                    self.check(bytes, column, content, u32::MAX)?;
                }
                Ok((answer, rest))
            }
            // There is no count, which the check says too.
            None => Err(self.check(bytes, column, content, u32::MAX).err().unwrap_or_else(|| refused(Reason::Overrun))),
        }
    }

    /// Passes over the cell of this column at the front of these bytes, and answers the bytes after it.
    #[inline(never)]
    pub(crate) fn pass<'a>(&self, bytes: &'a [u8], column: usize) -> Result<&'a [u8], NotRead> {
        let refused = |why| NotRead { column, left: bytes.len(), why: WhyNot::Refused(why) };
        let cell = read_cell(&self.limits, self.columns.kinds[column], bytes).map_err(refused)?;
        if let CellContent::Items(content) = cell.content {
            self.check(bytes, column, content, u32::MAX)?;
        }
        Ok(&bytes[cell.used..])
    }

    /// Checks the cell of this column at the front of these bytes, with this content, which is to have so many values at most.
    #[cold]
    #[inline(never)]
    fn check(&self, bytes: &[u8], column: usize, content: &[u8], most: u32) -> Result<(), NotRead> {
        let mut walk = Walk { limits: &self.limits, types: &self.columns.types, room: most };
        walk.items(self.columns.places[column] as usize, content, 0).map_err(|fault| match fault {
            Fault::Refused { at, why } => NotRead { column, left: bytes.len() - at, why: WhyNot::Refused(why) },
            Fault::TooLarge => NotRead { column, left: 0, why: WhyNot::TooLarge },
        })
    }
}
