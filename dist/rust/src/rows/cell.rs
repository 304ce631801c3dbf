//! Cells as they are lent, and the steps that are held of a cell with items until it ends.

use alloc::vec::Vec;

use crate::cqlp_build_cells::CellLimits;
use crate::cqlp_kind::{Kind, Scalar};
use crate::rows::error::Mismatch;
use crate::rows::items::LentItems;

/// A cell of a page, or an item of one. Its contents are lent from the page for `'a`, or from what a sink holds. Section 6 of
/// `native_protocol_v4.spec`.
#[derive(Clone, Copy, Debug)]
pub enum LentCell<'a, 's> {
    /// A negative length.
    Null,
    /// No bytes, of any type: an empty text is this.
    Empty,
    /// A scalar with some bytes.
    Scalar(Scalar<'a>),
    /// A list, a set, a map, a tuple or a user-defined value.
    Items(LentItems<'a, 's>),
}

impl<'a> LentCell<'a, '_> {
    /// Why this cell is no value of a Rust type.
    #[cold]
    #[inline(never)]
    #[must_use]
    pub fn unlike(&self, wanted: &'static str) -> Mismatch {
        match self {
            LentCell::Null => Mismatch::Null { wanted },
            LentCell::Empty => Mismatch::Empty { wanted },
            LentCell::Scalar(Scalar::Raw(_)) => Mismatch::Untyped { wanted },
            LentCell::Scalar(scalar) => Mismatch::Type { wanted, came: kind_of(scalar) },
            LentCell::Items(items) => Mismatch::Type { wanted, came: items.kind() },
        }
    }
}

/// The scalar of this kind whose content lies here. The decoder took these bytes for one.
#[inline]
pub(crate) fn content(kind: Kind, bytes: &[u8], start: u32, len: u32) -> Scalar<'_> {
    let bytes = bytes_at(bytes, start, len as usize);
    match Scalar::from_bytes(kind, bytes) {
        Some(Ok(scalar)) => scalar,
        _ => Scalar::Raw(bytes),
    }
}

/// A part of a value with items.
#[derive(Clone, Copy, Debug)]
pub(crate) enum Step {
    Null,
    Empty,
    /// A scalar without bytes of its own.
    Plain(Scalar<'static>),
    /// A scalar whose content lies in the bytes.
    Content {
        kind: Kind,
        start: u32,
        len: u32,
    },
    /// A value, all of whose parts are the next `len` steps.
    Enter {
        kind: Kind,
        count: u32,
        len: u32,
    },
}

/// Why a step is not held.
pub(crate) enum NotHeld {
    TooLarge,
    NoMemory,
}

/// Where the contents of a cell's items lie.
#[derive(Clone, Copy)]
pub(crate) enum Place {
    /// In a page, from this index on.
    Page(u32),
    /// Nowhere yet: they are copied.
    Copied,
}

/// The cell with items that is under way. Its memory is kept from cell to cell.
pub(crate) struct OpenCell {
    limits: CellLimits,
    steps: Vec<Step>,
    /// The steps of the values around the next item.
    open: Vec<u32>,
    copied: Vec<u8>,
    /// Whether nothing is held of the cell.
    passed_over: bool,
    pub(crate) row: u32,
    pub(crate) column: u32,
}

impl OpenCell {
    pub(crate) fn new(limits: CellLimits) -> OpenCell {
        OpenCell { limits, steps: Vec::new(), open: Vec::new(), copied: Vec::new(), passed_over: false, row: 0, column: 0 }
    }

    /// Forgets a cell, and begins one at this place, of which nothing is held where it is passed over.
    pub(crate) fn begin(&mut self, row: u32, column: u32, passed_over: bool) {
        self.steps.clear();
        self.open.clear();
        self.copied.clear();
        (self.row, self.column, self.passed_over) = (row, column, passed_over);
    }

    /// Holds a scalar, whose content lies here.
    #[inline]
    pub(crate) fn push_scalar(&mut self, scalar: &Scalar<'_>, place: Place) -> Result<(), NotHeld> {
        if self.passed_over {
            return Ok(());
        }
        let step = match plain(scalar) {
            Some(scalar) => Step::Plain(scalar),
            None => self.content_step(scalar, place)?,
        };
        self.push(step)
    }

    /// Holds a step.
    #[inline]
    pub(crate) fn push(&mut self, step: Step) -> Result<(), NotHeld> {
        if self.passed_over {
            return Ok(());
        }
        if self.steps.len() == self.steps.capacity() {
            self.grow()?;
        }
        self.steps.push(step);
        Ok(())
    }

    /// Makes room for a step.
    #[cold]
    #[inline(never)]
    fn grow(&mut self) -> Result<(), NotHeld> {
        let most = self.limits.events as usize;
        if self.steps.len() >= most {
            return Err(NotHeld::TooLarge);
        }
        let more = self.steps.len().max(16).min(most - self.steps.len());
        self.steps.try_reserve_exact(more).map_err(|_| NotHeld::NoMemory)
    }

    /// Begins a value with items.
    pub(crate) fn enter(&mut self, kind: Kind, count: u32) -> Result<(), NotHeld> {
        if self.passed_over {
            return Ok(());
        }
        self.open.try_reserve(1).map_err(|_| NotHeld::NoMemory)?;
        self.open.push(self.steps.len() as u32);
        self.push(Step::Enter { kind, count, len: 0 })
    }

    /// Ends the value that began last.
    pub(crate) fn leave(&mut self) {
        let here = self.steps.len() as u32;
        let Some(begin) = self.open.pop() else {
            return;
        };
        if let Some(Step::Enter { len, .. }) = self.steps.get_mut(begin as usize) {
            *len = here - begin - 1;
        }
    }

    /// The whole cell, whose contents lie in these bytes.
    pub(crate) fn lend<'a>(&self, bytes: &'a [u8]) -> LentCell<'a, '_> {
        LentItems::held(Kind::Tuple, 1, &self.steps, bytes).next().unwrap_or(LentCell::Null)
    }

    /// The whole cell, whose contents were copied.
    pub(crate) fn lend_copied(&self) -> LentCell<'_, '_> {
        self.lend(&self.copied)
    }

    /// The step of a scalar with bytes of its own.
    fn content_step(&mut self, scalar: &Scalar<'_>, place: Place) -> Result<Step, NotHeld> {
        let (front, bytes) = bytes_of(scalar);
        let (kind, len) = (kind_of(scalar), (front.len() + bytes.len()) as u32);
        if let Place::Page(start) = place {
            return Ok(Step::Content { kind, start, len });
        }
        let start = self.copied.len() as u32;
        if len > self.limits.bytes.saturating_sub(start) {
            return Err(NotHeld::TooLarge);
        }
        self.copied.try_reserve(len as usize).map_err(|_| NotHeld::NoMemory)?;
        self.copied.extend_from_slice(&front);
        self.copied.extend_from_slice(bytes);
        Ok(Step::Content { kind, start, len })
    }
}

/// The kind of a scalar.
#[inline]
pub(crate) fn kind_of(scalar: &Scalar<'_>) -> Kind {
    match scalar {
        Scalar::Custom(_) => Kind::Custom,
        Scalar::Ascii(_) => Kind::Ascii,
        Scalar::Bigint(_) => Kind::Bigint,
        Scalar::Blob(_) => Kind::Blob,
        Scalar::Boolean(_) => Kind::Boolean,
        Scalar::Counter(_) => Kind::Counter,
        Scalar::Decimal { .. } => Kind::Decimal,
        Scalar::Double(_) => Kind::Double,
        Scalar::Float(_) => Kind::Float,
        Scalar::Int(_) => Kind::Int,
        Scalar::Timestamp(_) => Kind::Timestamp,
        Scalar::Uuid(_) => Kind::Uuid,
        Scalar::Varchar(_) => Kind::Varchar,
        Scalar::Varint(_) => Kind::Varint,
        Scalar::Timeuuid(_) => Kind::Timeuuid,
        Scalar::Inet(_) => Kind::Inet,
        Scalar::Date(_) => Kind::Date,
        Scalar::Time(_) => Kind::Time,
        Scalar::Smallint(_) => Kind::Smallint,
        Scalar::Tinyint(_) => Kind::Tinyint,
        Scalar::Raw(_) => Kind::Raw,
    }
}

/// A scalar that lends nothing; None of one that does.
#[inline]
pub(crate) fn plain(scalar: &Scalar<'_>) -> Option<Scalar<'static>> {
    Some(match *scalar {
        Scalar::Bigint(number) => Scalar::Bigint(number),
        Scalar::Boolean(truth) => Scalar::Boolean(truth),
        Scalar::Counter(number) => Scalar::Counter(number),
        Scalar::Double(bytes) => Scalar::Double(bytes),
        Scalar::Float(bytes) => Scalar::Float(bytes),
        Scalar::Int(number) => Scalar::Int(number),
        Scalar::Timestamp(number) => Scalar::Timestamp(number),
        Scalar::Uuid(bytes) => Scalar::Uuid(bytes),
        Scalar::Timeuuid(bytes) => Scalar::Timeuuid(bytes),
        Scalar::Inet(address) => Scalar::Inet(address),
        Scalar::Date(days) => Scalar::Date(days),
        Scalar::Time(number) => Scalar::Time(number),
        Scalar::Smallint(number) => Scalar::Smallint(number),
        Scalar::Tinyint(number) => Scalar::Tinyint(number),
        _ => return None,
    })
}

/// The bytes of a scalar that lends some, and those in front of them.
#[inline]
fn bytes_of<'a>(scalar: &Scalar<'a>) -> (Front, &'a [u8]) {
    match *scalar {
        Scalar::Ascii(text) | Scalar::Varchar(text) => (Front::None, text.as_bytes()),
        Scalar::Custom(bytes) | Scalar::Blob(bytes) | Scalar::Varint(bytes) | Scalar::Raw(bytes) => (Front::None, bytes),
        Scalar::Decimal { scale, unscaled } => (Front::Scale(scale.to_be_bytes()), unscaled),
        _ => (Front::None, &[]),
    }
}

/// The bytes in front of those that a scalar lends: the scale of a decimal.
enum Front {
    None,
    Scale([u8; 4]),
}

impl core::ops::Deref for Front {
    type Target = [u8];

    fn deref(&self) -> &[u8] {
        match self {
            Front::None => &[],
            Front::Scale(bytes) => bytes,
        }
    }
}

/// A scalar of a page, whose content begins at an index, with its bytes lent from the page.
#[inline(always)]
pub(crate) fn lend<'a>(page: &'a [u8], start: u32, scalar: &Scalar<'_>) -> Scalar<'a> {
    let bytes = |len| bytes_at(page, start, len);
    match *scalar {
        Scalar::Varchar(text) => Scalar::Varchar(text_at(page, start, text.len())),
        Scalar::Ascii(text) => Scalar::Ascii(text_at(page, start, text.len())),
        Scalar::Custom(own) => Scalar::Custom(bytes(own.len())),
        Scalar::Blob(own) => Scalar::Blob(bytes(own.len())),
        Scalar::Varint(own) => Scalar::Varint(bytes(own.len())),
        Scalar::Raw(own) => Scalar::Raw(bytes(own.len())),
        Scalar::Decimal { scale, unscaled } => Scalar::Decimal { scale, unscaled: bytes_at(page, start + 4, unscaled.len()) },
        ref other => plain(other).unwrap_or(Scalar::Raw(&[])),
    }
}

/// So many bytes of a page from an index on.
#[inline]
fn bytes_at(page: &[u8], start: u32, len: usize) -> &[u8] {
    page.get(start as usize..).and_then(|rest| rest.get(..len)).unwrap_or_default()
}

/// So many bytes of a page from an index on, which the decoder took for a text.
#[inline]
fn text_at(page: &[u8], start: u32, len: usize) -> &str {
    core::str::from_utf8(bytes_at(page, start, len)).unwrap_or_default()
}
