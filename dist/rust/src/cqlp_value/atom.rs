// Written by dist/erase from crates/cqlp_value/src/atom.rt.
//! Scalars that a program owns: their kinds, and the bytes of their contents.

use crate::kit_std::prelude::{KitNumber};
use crate::cqlp_value::fitting::is;
use crate::cqlp_value::value::Atom;
use crate::cqlp_kind::content::{DAY, allows};
use crate::cqlp_note::Address;
use crate::cqlp_type::Kind;

/// The content of a scalar: a number, whose bytes go from the highest to the lowest, or bytes that are lent.
#[derive(Clone, Copy, Debug, PartialEq, Eq)]
pub enum Content<'a> {
    /// A boolean, 0 or 1, or a tinyint in two's complement.
    One(u8),
    /// A smallint in two's complement.
    Two(u16),
    /// An int in two's complement, or the days of a date.
    Four(u32),
    /// A bigint, a counter, a timestamp or a time, in two's complement.
    Eight(u64),
    /// The bytes of any other scalar but a decimal, as they are written.
    Lent(&'a [u8]),
    /// The scale of a decimal, and its unscaled number.
    Decimal([u8; 4], &'a [u8]),
}

impl Atom {
    /// The kind of its type.
    #[must_use]
    #[inline(always)]
    pub fn kind(&self) -> Kind {
        match self {
            Atom::Custom(_) => Kind::Custom,
            Atom::Ascii(_) => Kind::Ascii,
            Atom::Bigint(_) => Kind::Bigint,
            Atom::Blob(_) => Kind::Blob,
            Atom::Boolean(_) => Kind::Boolean,
            Atom::Counter(_) => Kind::Counter,
            Atom::Decimal { .. } => Kind::Decimal,
            Atom::Double(_) => Kind::Double,
            Atom::Float(_) => Kind::Float,
            Atom::Int(_) => Kind::Int,
            Atom::Timestamp(_) => Kind::Timestamp,
            Atom::Uuid(_) => Kind::Uuid,
            Atom::Varchar(_) => Kind::Varchar,
            Atom::Varint(_) => Kind::Varint,
            Atom::Timeuuid(_) => Kind::Timeuuid,
            Atom::Inet(_) => Kind::Inet,
            Atom::Date(_) => Kind::Date,
            Atom::Time(_) => Kind::Time,
            Atom::Smallint(_) => Kind::Smallint,
            Atom::Tinyint(_) => Kind::Tinyint,
            Atom::Raw(_) => Kind::Raw,
        }
    }

    /// Its content: what follows its length where it is spelled. A true is the byte 01. What it holds is in the range of
    /// its types.
    #[must_use]
    #[inline(always)]
    pub fn content(&self) -> Content<'_> {
        match self {
            Atom::Custom(bytes) | Atom::Blob(bytes) | Atom::Varint(bytes) | Atom::Raw(bytes) => {
                Content::Lent(bytes)
            }
            Atom::Ascii(text) | Atom::Varchar(text) => Content::Lent(text.as_str().as_bytes()),
            Atom::Bigint(number)
            | Atom::Counter(number)
            | Atom::Timestamp(number)
            | Atom::Time(number) => Content::Eight(number.kit_other_sign()),
            Atom::Boolean(value) => Content::One(u8::from(*value)),
            Atom::Decimal { scale, unscaled } => Content::Decimal(scale.to_be_bytes(), unscaled),
            Atom::Double(bytes) => Content::Lent(bytes),
            Atom::Float(bytes) => Content::Lent(bytes),
            Atom::Int(number) => Content::Four(number.kit_other_sign()),
            Atom::Uuid(bytes) | Atom::Timeuuid(bytes) => Content::Lent(bytes),
            Atom::Inet(Address::V4(bytes)) => Content::Lent(bytes),
            Atom::Inet(Address::V6(bytes)) => Content::Lent(bytes),
            Atom::Date(days) => Content::Four(*days),
            Atom::Smallint(number) => Content::Two(number.kit_other_sign()),
            Atom::Tinyint(number) => Content::One(number.kit_other_sign()),
        }
    }

    /// How many bytes its content has. What it holds is in the range of its types.
    #[must_use]
    #[inline(always)]
    pub fn content_len(&self) -> u64 {
        match self.content() {
            Content::One(_) => 1,
            Content::Two(_) => 2,
            Content::Four(_) => 4,
            Content::Eight(_) => 8,
            Content::Lent(bytes) => bytes.len() as u64,
            Content::Decimal(_, unscaled) => unscaled.len() as u64 + 4,
        }
    }

    /// How many bytes it has with the four of its length. What it holds is in the range of its types.
    #[inline(always)]
    pub(crate) fn size(&self) -> u64 {
        match self.content() {
            Content::One(_) => 5,
            Content::Two(_) => 6,
            Content::Four(_) => 8,
            Content::Eight(_) => 12,
            Content::Lent(bytes) => bytes.len() as u64 + 4,
            Content::Decimal(_, unscaled) => unscaled.len() as u64 + 8,
        }
    }

    /// How many bytes it has with the four of its length, or None where [`is_allowed`](Self::is_allowed) is false. What it
    /// holds is then in the range of its types.
    #[must_use]
    #[inline(always)]
    pub fn allowed_size(&self) -> Option<u64> {
        if self.is_allowed() {
            Some(self.size())
        } else {
            None
        }
    }

    /// Its content, or None where it is none of this kind, as [`fits`](crate::cqlp_value::fits) says. What it holds is then in the range of its types.
    #[must_use]
    #[inline(always)]
    pub fn content_as(&self, kind: Kind) -> Option<Content<'_>> {
        if is(self.kind(), kind) && self.is_allowed() {
            Some(self.content())
        } else {
            None
        }
    }

    /// Whether its content is one of its kind: it is not empty, an ascii is ASCII, a timeuuid is of version 1, a time
    /// is within a day, and a decimal has an unscaled number.
    #[must_use]
    #[inline(always)]
    pub fn is_allowed(&self) -> bool {
        match self {
            Atom::Custom(bytes) | Atom::Blob(bytes) | Atom::Varint(bytes) | Atom::Raw(bytes) => {
                !bytes.is_empty()
            }
            Atom::Ascii(text) => !text.is_empty() && text.is_ascii(),
            Atom::Varchar(text) => !text.as_str().is_empty(),
            Atom::Decimal { unscaled, .. } => !unscaled.is_empty(),
            Atom::Double(bytes) => may_be(Kind::Double, *bytes),
            Atom::Float(bytes) => may_be(Kind::Float, *bytes),
            Atom::Uuid(bytes) => may_be(Kind::Uuid, *bytes),
            Atom::Timeuuid(bytes) => may_be(Kind::Timeuuid, *bytes) && bytes[6] >> 4 == 1,
            Atom::Inet(address) => match address {
                Address::V4(bytes) => may_be(Kind::Inet, *bytes),
                Address::V6(bytes) => may_be(Kind::Inet, *bytes),
            },
            Atom::Time(number) => number.kit_other_sign() < DAY,
            _ => true,
        }
    }
}

/// Whether a content of this kind may be as long as these bytes.
#[inline]
fn may_be<const N: usize>(kind: Kind, bytes: [u8; N]) -> bool {
    allows(kind, bytes.len())
}
