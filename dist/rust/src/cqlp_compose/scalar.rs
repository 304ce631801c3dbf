// Written by dist/erase from crates/cqlp_compose/src/scalar.rt.
//! The scalars of events: their kinds, and their contents.

use crate::kit_std::prelude::{KitNumber};
use crate::cqlp_kind::content::DAY;
use crate::cqlp_kind::{Kind, Scalar};
use crate::cqlp_note::Address;

/// The content of a scalar, as it is written.
#[derive(Clone, Copy)]
pub enum Content<'a> {
    One([u8; 1]),
    Two([u8; 2]),
    Four([u8; 4]),
    Eight([u8; 8]),
    Sixteen([u8; 16]),
    /// The bytes of a scalar of any length.
    Lent(&'a [u8]),
    /// The scale of a decimal, and its unscaled number.
    Decimal([u8; 4], &'a [u8]),
}

/// Its kind.
#[inline(always)]
pub fn scalar_kind(scalar: &Scalar<'_>) -> Kind {
    match scalar {
        Scalar::Custom(_) => Kind::Custom,
        Scalar::Ascii(_) => Kind::Ascii,
        Scalar::Bigint(_) => Kind::Bigint,
        Scalar::Blob(_) => Kind::Blob,
        Scalar::Boolean(_) => Kind::Boolean,
        Scalar::Counter(_) => Kind::Counter,
        Scalar::Decimal { .. } => Kind::Decimal,
        Scalar::Double(_) => Kind::Double,
        Scalar::Float(_) => Kind::Float,
        Scalar::Int(_) => Kind::Int,
        Scalar::Timestamp(_) => Kind::Timestamp,
        Scalar::Uuid(_) => Kind::Uuid,
        Scalar::Varchar(_) => Kind::Varchar,
        Scalar::Varint(_) => Kind::Varint,
        Scalar::Timeuuid(_) => Kind::Timeuuid,
        Scalar::Inet(_) => Kind::Inet,
        Scalar::Date(_) => Kind::Date,
        Scalar::Time(_) => Kind::Time,
        Scalar::Smallint(_) => Kind::Smallint,
        Scalar::Tinyint(_) => Kind::Tinyint,
        Scalar::Raw(_) => Kind::Raw,
    }
}

/// The same bytes, which are as many as their type says.
#[inline(always)]
fn known<const N: usize>(bytes: [u8; N]) -> [u8; N] {
    bytes
}

/// Its content. What it holds is in the range of its types.
#[inline(always)]
pub fn scalar_content<'a>(scalar: &Scalar<'a>) -> Content<'a> {
    match scalar {
        Scalar::Custom(bytes) => Content::Lent(bytes),
        Scalar::Blob(bytes) => Content::Lent(bytes),
        Scalar::Varint(bytes) => Content::Lent(bytes),
        Scalar::Raw(bytes) => Content::Lent(bytes),
        Scalar::Ascii(text) => Content::Lent(text.as_bytes()),
        Scalar::Varchar(text) => Content::Lent(text.as_bytes()),
        Scalar::Bigint(number) => Content::Eight(number.to_be_bytes()),
        Scalar::Counter(number) => Content::Eight(number.to_be_bytes()),
        Scalar::Timestamp(number) => Content::Eight(number.to_be_bytes()),
        Scalar::Time(number) => Content::Eight(number.to_be_bytes()),
        Scalar::Boolean(value) => Content::One([u8::from(*value)]),
        Scalar::Decimal { scale, unscaled } => Content::Decimal(scale.to_be_bytes(), unscaled),
        Scalar::Double(bytes) => Content::Eight(known(*bytes)),
        Scalar::Float(bytes) => Content::Four(known(*bytes)),
        Scalar::Int(number) => Content::Four(number.to_be_bytes()),
        Scalar::Uuid(bytes) => Content::Sixteen(known(*bytes)),
        Scalar::Timeuuid(bytes) => Content::Sixteen(known(*bytes)),
        Scalar::Inet(Address::V4(bytes)) => Content::Four(known(*bytes)),
        Scalar::Inet(Address::V6(bytes)) => Content::Sixteen(known(*bytes)),
        Scalar::Date(days) => Content::Four(days.to_be_bytes()),
        Scalar::Smallint(number) => Content::Two(number.to_be_bytes()),
        Scalar::Tinyint(number) => Content::One(number.to_be_bytes()),
    }
}

/// Whether its content is one of its kind: it is not empty, an ascii is ASCII, a timeuuid is of version 1, a time is within a day, and a
/// decimal has an unscaled number.
#[inline(always)]
fn is_allowed(scalar: &Scalar<'_>) -> bool {
    match scalar {
        Scalar::Custom(bytes) => !bytes.is_empty(),
        Scalar::Blob(bytes) => !bytes.is_empty(),
        Scalar::Varint(bytes) => !bytes.is_empty(),
        Scalar::Raw(bytes) => !bytes.is_empty(),
        Scalar::Ascii(text) => !text.is_empty() && text.is_ascii(),
        Scalar::Varchar(text) => !text.is_empty(),
        Scalar::Decimal { unscaled, .. } => !unscaled.is_empty(),
        Scalar::Timeuuid(bytes) => bytes[6] >> 4 == 1,
        Scalar::Time(number) => number.kit_other_sign() < DAY,
        _ => true,
    }
}

/// Its content, or None where it is none of this kind. What it holds is then in the range of its types.
#[inline(always)]
pub fn content_as<'a>(scalar: &Scalar<'a>, kind: Kind) -> Option<Content<'a>> {
    let content = scalar_content(scalar);
    if scalar_kind(scalar) == kind && is_allowed(scalar) {
        Some(content)
    } else {
        None
    }
}
