// Written by dist/erase from crates/cqlp_kind/src/content.rt.
//! Scalars out of their bytes.

use crate::cqlp_kind::kind::Kind;
use crate::cqlp_kind::scalars::Scalar;
use crate::cqlp_note::{Address, Reason, is_text};

/// The first nanosecond that is not of the same day.
pub const DAY: u64 = 86_400_000_000_000;

/// The scalar of this kind that these bytes spell, all of them. Section 6 of `native_protocol_v4.spec`.
///
/// `BadSize` where no scalar of the kind has this many bytes; else `BadUtf8` for a varchar that is not UTF-8, and
/// `BadScalar` for an ascii with a byte above 7F, a time past the end of a day or a timeuuid that is not of version 1.
///
/// A varint has no least form, and neither has the unscaled part of a decimal: bytes in front that only repeat the sign
/// are taken as they are.
#[inline(always)]
pub(crate) fn scalar(kind: Kind, bytes: &[u8]) -> Result<Scalar<'_>, Reason> {
    if !allows(kind, bytes.len()) {
        Err(Reason::BadSize)
    } else if accepts(kind, bytes) {
        Ok(make_scalar(kind, bytes))
    } else {
        Err(fault(kind))
    }
}

/// Whether a content of a scalar kind may have this many bytes, which are not none.
#[inline]
pub fn allows(kind: Kind, len: usize) -> bool {
    match kind {
        Kind::Bigint | Kind::Counter | Kind::Timestamp | Kind::Time | Kind::Double => len == 8,
        Kind::Int | Kind::Date | Kind::Float => len == 4,
        Kind::Smallint => len == 2,
        Kind::Tinyint | Kind::Boolean => len == 1,
        Kind::Uuid | Kind::Timeuuid => len == 16,
        Kind::Inet => len == 4 || len == 16,
        Kind::Decimal => len >= 5,
        _ => true,
    }
}

/// Whether a content of an allowed length is a scalar of this kind.
#[inline(always)]
pub(crate) fn accepts(kind: Kind, bytes: &[u8]) -> bool {
    match kind {
        Kind::Ascii => bytes.is_ascii(),
        Kind::Varchar => is_text(bytes),
        Kind::Time => u64::from_be_bytes(read_array(bytes)) < DAY,
        Kind::Timeuuid => bytes[6] >> 4 == 1,
        _ => true,
    }
}

/// Why a content of an allowed length is no scalar of this kind.
pub fn fault(kind: Kind) -> Reason {
    match kind {
        Kind::Varchar => Reason::BadUtf8,
        _ => Reason::BadScalar,
    }
}

/// The scalar that these bytes are.
#[inline]
pub(crate) fn make_scalar(kind: Kind, bytes: &[u8]) -> Scalar<'_> {
    match kind {
        Kind::Custom => Scalar::Custom(bytes),
        // The bytes are text, which `accepts` found out.
        Kind::Ascii => Scalar::Ascii(unsafe { core::str::from_utf8_unchecked(bytes) }),
        Kind::Bigint => Scalar::Bigint(i64::from_be_bytes(read_array(bytes))),
        Kind::Blob => Scalar::Blob(bytes),
        Kind::Boolean => Scalar::Boolean(bytes[0] != 0),
        Kind::Counter => Scalar::Counter(i64::from_be_bytes(read_array(bytes))),
        Kind::Decimal => Scalar::Decimal {
            scale: i32::from_be_bytes(read_array(bytes)),
            unscaled: &bytes[4..],
        },
        Kind::Double => Scalar::Double(read_array(bytes)),
        Kind::Float => Scalar::Float(read_array(bytes)),
        Kind::Int => Scalar::Int(i32::from_be_bytes(read_array(bytes))),
        Kind::Timestamp => Scalar::Timestamp(i64::from_be_bytes(read_array(bytes))),
        Kind::Uuid => Scalar::Uuid(read_array(bytes)),
        // So are these.
        Kind::Varchar => Scalar::Varchar(unsafe { core::str::from_utf8_unchecked(bytes) }),
        Kind::Varint => Scalar::Varint(bytes),
        Kind::Timeuuid => Scalar::Timeuuid(read_array(bytes)),
        Kind::Inet => Scalar::Inet(address(bytes)),
        Kind::Date => Scalar::Date(u32::from_be_bytes(read_array(bytes))),
        Kind::Time => Scalar::Time(i64::from_be_bytes(read_array(bytes))),
        Kind::Smallint => Scalar::Smallint(i16::from_be_bytes(read_array(bytes))),
        Kind::Tinyint => Scalar::Tinyint(i8::from_be_bytes(read_array(bytes))),
        Kind::Raw => Scalar::Raw(bytes),
        Kind::List | Kind::Map | Kind::Set | Kind::Udt | Kind::Tuple => unreachable!(),
    }
}

/// An address of 4 or 16 bytes.
#[inline(always)]
fn address(bytes: &[u8]) -> Address {
    if bytes.len() == 4 {
        Address::V4(read_array(bytes))
    } else {
        Address::V6(read_array(bytes))
    }
}

/// The first N bytes.
#[inline(always)]
pub(crate) fn read_array<const N: usize>(bytes: &[u8]) -> [u8; N] {
    *bytes.first_chunk().unwrap()
}
