// Written by dist/erase from crates/cqlp_columns/src/cell.rt.
//! Cells of columns.

use crate::kit_std::prelude::{KitVec};
use crate::cqlp_columns::bytes::Bytes;
use crate::cqlp_columns::layout::Layout;
use crate::cqlp_kind::{Kind, Scalar};
use crate::cqlp_note::Address;

/// A cell of a column whose values have no items.
#[derive(Clone, Copy, Debug, PartialEq, Eq)]
pub enum Cell<'a> {
    /// A value of a negative length.
    Null,
    /// A value of no bytes.
    Empty,
    /// A value with bytes, read by the type of its column. Section 6 of `native_protocol_v4.spec`.
    Holds(Scalar<'a>),
}

/// A cell whose scalar lies elsewhere, so that none is copied.
#[derive(Clone, Copy)]
pub(crate) enum CellRef<'a> {
    /// A value of a negative length.
    Null,
    /// A value of no bytes.
    Empty,
    /// A value with bytes.
    Holds(&'a Scalar<'a>),
}

/// A cell with its scalar where it lies.
#[inline(always)]
pub(crate) fn lend<'a>(cell: &'a Cell<'a>) -> CellRef<'a> {
    match *cell {
        Cell::Null => CellRef::Null,
        Cell::Empty => CellRef::Empty,
        Cell::Holds(ref scalar) => CellRef::Holds(scalar),
    }
}

/// Whether a cell has a value in this layout: a value of no bytes is one only where as many bytes represent a value as it has.
#[inline(always)]
pub(crate) fn is_valid(layout: Layout, cell: CellRef<'_>) -> bool {
    match cell {
        CellRef::Null => false,
        CellRef::Empty => matches!(layout, Layout::Variable),
        CellRef::Holds(_) => true,
    }
}

/// Whether a cell has a value of no bytes.
#[inline(always)]
pub(crate) fn is_empty(cell: CellRef<'_>) -> bool {
    matches!(cell, CellRef::Empty)
}

/// Whether a cell is true.
#[inline(always)]
pub(crate) fn is_true(cell: CellRef<'_>) -> bool {
    matches!(cell, CellRef::Holds(&Scalar::Boolean(true)))
}

/// The kind of a scalar.
#[inline(always)]
pub(crate) fn kind_of(scalar: &Scalar<'_>) -> Kind {
    match *scalar {
        Scalar::Custom(_) => Kind::Custom,
        Scalar::Ascii(_) => Kind::Ascii,
        Scalar::Bigint(_) => Kind::Bigint,
        Scalar::Blob(_) => Kind::Blob,
        Scalar::Boolean(_) => Kind::Boolean,
        Scalar::Counter(_) => Kind::Counter,
        Scalar::Decimal { .. } => Kind::Decimal,
        Scalar::Double(_) => Kind::Double,
        Scalar::Float(_) => Kind::Float,
        Scalar::Int(_) => Kind::Int,
        Scalar::Timestamp(_) => Kind::Timestamp,
        Scalar::Uuid(_) => Kind::Uuid,
        Scalar::Varchar(_) => Kind::Varchar,
        Scalar::Varint(_) => Kind::Varint,
        Scalar::Timeuuid(_) => Kind::Timeuuid,
        Scalar::Inet(_) => Kind::Inet,
        Scalar::Date(_) => Kind::Date,
        Scalar::Time(_) => Kind::Time,
        Scalar::Smallint(_) => Kind::Smallint,
        Scalar::Tinyint(_) => Kind::Tinyint,
        Scalar::Raw(_) => Kind::Raw,
    }
}

/// How many bytes represent a scalar.
#[inline(always)]
pub(crate) fn stored_len(scalar: &Scalar<'_>) -> usize {
    match *scalar {
        Scalar::Boolean(_) => 0,
        Scalar::Tinyint(_) => 1,
        Scalar::Smallint(_) => 2,
        Scalar::Int(_) | Scalar::Date(_) => 4,
        Scalar::Float(bytes) => array_len(bytes),
        Scalar::Bigint(_) | Scalar::Counter(_) | Scalar::Timestamp(_) | Scalar::Time(_) => 8,
        Scalar::Double(bytes) => array_len(bytes),
        Scalar::Uuid(bytes) => array_len(bytes),
        Scalar::Timeuuid(bytes) => array_len(bytes),
        Scalar::Decimal { unscaled, .. } => decimal_len(unscaled),
        Scalar::Inet(Address::V4(bytes)) => array_len(bytes),
        Scalar::Inet(Address::V6(bytes)) => array_len(bytes),
        Scalar::Ascii(text) | Scalar::Varchar(text) => text.len(),
        Scalar::Custom(bytes) | Scalar::Blob(bytes) | Scalar::Varint(bytes) | Scalar::Raw(bytes) =>
            bytes.len(),
    }
}

/// How many bytes an array has.
#[inline(always)]
fn array_len<const N: usize>(bytes: [u8; N]) -> usize {
    bytes.len()
}

/// How many bytes a decimal has, with its scale.
#[inline(always)]
fn decimal_len(unscaled: &[u8]) -> usize {
    4 + unscaled.len()
}

/// Adds the bytes that represent a scalar, for which there is room.
#[inline(always)]
pub(crate) fn put_scalar(values: &mut Bytes, scalar: &Scalar<'_>) {
    match *scalar {
        Scalar::Boolean(_) => {}
        Scalar::Tinyint(n) => put(values, &n.to_le_bytes()),
        Scalar::Smallint(n) => put(values, &n.to_le_bytes()),
        Scalar::Int(n) => put(values, &n.to_le_bytes()),
        Scalar::Date(n) => put(values, &n.to_le_bytes()),
        Scalar::Float(bytes) => put_reversed(values, bytes),
        Scalar::Bigint(n) => put(values, &n.to_le_bytes()),
        Scalar::Counter(n) => put(values, &n.to_le_bytes()),
        Scalar::Timestamp(n) => put(values, &n.to_le_bytes()),
        Scalar::Time(n) => put(values, &n.to_le_bytes()),
        Scalar::Double(bytes) => put_reversed(values, bytes),
        Scalar::Uuid(bytes) => put_array(values, bytes),
        Scalar::Timeuuid(bytes) => put_array(values, bytes),
        Scalar::Decimal { scale, unscaled } => {
            put(values, &scale.to_be_bytes());
            put_content(values, unscaled);
        }
        Scalar::Inet(Address::V4(bytes)) => put_array(values, bytes),
        Scalar::Inet(Address::V6(bytes)) => put_array(values, bytes),
        Scalar::Ascii(text) => put_content(values, text.as_bytes()),
        Scalar::Varchar(text) => put_content(values, text.as_bytes()),
        Scalar::Custom(bytes) => put_content(values, bytes),
        Scalar::Blob(bytes) => put_content(values, bytes),
        Scalar::Varint(bytes) => put_content(values, bytes),
        Scalar::Raw(bytes) => put_content(values, bytes),
    }
}

/// Adds bytes, for which there is room.
#[inline(always)]
pub(crate) fn put(values: &mut Bytes, bytes: &[u8]) {
    values.kit_push(bytes);
}

/// Adds a content of any length, for which there is room. This is a call of its own, so that the loop over cells has less code.
#[inline(never)]
fn put_content(values: &mut Bytes, bytes: &[u8]) {
    put(values, bytes);
}

/// Adds bytes.
#[inline(always)]
fn put_array<const N: usize>(values: &mut Bytes, bytes: [u8; N]) {
    put(values, &bytes);
}

/// Adds bytes, the last of them first.
#[inline(always)]
fn put_reversed<const N: usize>(values: &mut Bytes, bytes: [u8; N]) {
    let mut turned = bytes;
    turned.reverse();
    put(values, &turned);
}
