//! Rust types, read from cells that are scalars.

use alloc::string::String;
use alloc::vec::Vec;
use core::net::{IpAddr, Ipv4Addr, Ipv6Addr};

use crate::cqlp_kind::{Kind, Scalar};
use crate::cqlp_note::Address;
use crate::cqlp_value::{Atom, Value};
use crate::rows::cell::LentCell;
use crate::rows::error::Mismatch;
use crate::rows::items::LentItems;

/// A type that is read from a cell, or from an item of one. Section 6 of `native_protocol_v4.spec`.
///
/// The types of std's alloc ask for memory as std does: a refusal of more than 4,096 bytes is [`Mismatch::NoMemory`], a refusal of fewer
/// ends the program. No length or count that a peer sends decides how much is asked for, but the contents that came.
///
/// `'a` is how long the contents are lent: those of a page in memory for as long as the page, so that `&'a str` and `&'a [u8]` are read
/// without a copy. What a [`RowSink`](crate::rows::RowSink) reads has to be of every `'a`, so it owns its contents.
///
/// A newtype of the caller's is read as its inner type:
///
/// ```
/// use cqlp::rows::{FromCell, LentCell, Mismatch};
///
/// struct Cents(i64);
///
/// impl<'a> FromCell<'a> for Cents {
///     const KIND: Option<cqlp::Kind> = <i64 as FromCell>::KIND;
///
///     fn from_cell(cell: LentCell<'a, '_>) -> Result<Self, Mismatch> {
///         i64::from_cell(cell).map(Cents)
///     }
/// }
/// ```
pub trait FromCell<'a>: Sized {
    /// The kind of columns that are read the fastest. It changes no value; a newtype takes that of its inner type.
    const KIND: Option<Kind> = None;

    /// The value of a cell.
    ///
    /// # Errors
    ///
    /// Why the cell has no such value.
    fn from_cell(cell: LentCell<'a, '_>) -> Result<Self, Mismatch>;

    /// What `from_cell` makes of a null, where that is known without a look at more.
    #[doc(hidden)]
    #[inline(always)]
    #[must_use]
    fn null() -> Option<Self> {
        None
    }
}

/// Implements `FromCell` for types by the scalars that each reads.
macro_rules! scalars {
    ($($type:ty, $kind:ident: $($pattern:pat => $made:expr),+;)+) => {$(
        impl<'a> FromCell<'a> for $type {
            const KIND: Option<$crate::cqlp_kind::Kind> = Some($crate::cqlp_kind::Kind::$kind);

            #[inline(always)]
            fn from_cell(cell: LentCell<'a, '_>) -> Result<Self, Mismatch> {
                match cell {
                    $(LentCell::Scalar($pattern) => Ok($made),)+
                    other => Err(other.unlike(stringify!($type))),
                }
            }
        }
    )+};
}
pub(crate) use scalars;

scalars! {
    i8, Tinyint: Scalar::Tinyint(number) => number;
    i16, Smallint: Scalar::Smallint(number) => number;
    i32, Int: Scalar::Int(number) => number;
    i64, Bigint: Scalar::Bigint(number) => number;
    f32, Float: Scalar::Float(bytes) => f32::from_be_bytes(bytes);
    f64, Double: Scalar::Double(bytes) => f64::from_be_bytes(bytes);
    bool, Boolean: Scalar::Boolean(truth) => truth;
    IpAddr, Inet: Scalar::Inet(address) => ip_of(address);
    Ipv4Addr, Inet: Scalar::Inet(Address::V4(octets)) => Ipv4Addr::from(octets);
    Ipv6Addr, Inet: Scalar::Inet(Address::V6(octets)) => Ipv6Addr::from(octets);
}

fn ip_of(address: Address) -> IpAddr {
    match address {
        Address::V4(octets) => IpAddr::from(octets),
        Address::V6(octets) => IpAddr::from(octets),
    }
}

/// The text of an ascii or a varchar, which may be empty.
impl<'a> FromCell<'a> for &'a str {
    const KIND: Option<Kind> = Some(Kind::Varchar);

    #[inline(always)]
    fn from_cell(cell: LentCell<'a, '_>) -> Result<Self, Mismatch> {
        text_of(cell, "&str")
    }
}

/// The text of an ascii or a varchar, which may be empty.
impl<'a> FromCell<'a> for String {
    const KIND: Option<Kind> = Some(Kind::Varchar);

    #[inline(always)]
    fn from_cell(cell: LentCell<'a, '_>) -> Result<Self, Mismatch> {
        own(text_of(cell, "String")?)
    }
}

/// The most bytes for which memory is asked for as std does, which ends the program where it is refused: that is faster. For more a
/// refusal is an error.
const SMALL: usize = 4_096;

/// This text, owned.
#[inline(always)]
fn own(text: &str) -> Result<String, Mismatch> {
    if text.len() <= SMALL { Ok(String::from(text)) } else { own_large(text) }
}

#[cold]
#[inline(never)]
fn own_large(text: &str) -> Result<String, Mismatch> {
    let mut owned = String::new();
    owned.try_reserve_exact(text.len()).map_err(|_| Mismatch::NoMemory)?;
    owned.push_str(text);
    Ok(owned)
}

#[inline(always)]
fn text_of<'a>(cell: LentCell<'a, '_>, wanted: &'static str) -> Result<&'a str, Mismatch> {
    match cell {
        LentCell::Scalar(Scalar::Varchar(text) | Scalar::Ascii(text)) => Ok(text),
        LentCell::Empty => Ok(""),
        other => Err(other.unlike(wanted)),
    }
}

/// The bytes of a blob, of a custom type, or of a cell whose type is not known.
impl<'a> FromCell<'a> for &'a [u8] {
    const KIND: Option<Kind> = Some(Kind::Blob);

    #[inline(always)]
    fn from_cell(cell: LentCell<'a, '_>) -> Result<Self, Mismatch> {
        blob_of(cell, "&[u8]")
    }
}

/// The bytes of a blob, of a custom type, or of a cell whose type is not known.
impl<'a> FromCell<'a> for Vec<u8> {
    const KIND: Option<Kind> = Some(Kind::Blob);

    #[inline(always)]
    fn from_cell(cell: LentCell<'a, '_>) -> Result<Self, Mismatch> {
        copy_of(blob_of(cell, "Vec<u8>")?)
    }
}

#[inline(always)]
fn blob_of<'a>(cell: LentCell<'a, '_>, wanted: &'static str) -> Result<&'a [u8], Mismatch> {
    match cell {
        LentCell::Scalar(Scalar::Blob(bytes) | Scalar::Custom(bytes) | Scalar::Raw(bytes)) => Ok(bytes),
        LentCell::Empty => Ok(&[]),
        other => Err(other.unlike(wanted)),
    }
}

/// These bytes, owned.
#[inline]
pub(crate) fn copy_of(bytes: &[u8]) -> Result<Vec<u8>, Mismatch> {
    if bytes.len() <= SMALL { Ok(bytes.to_vec()) } else { copy_large(bytes) }
}

#[cold]
#[inline(never)]
fn copy_large(bytes: &[u8]) -> Result<Vec<u8>, Mismatch> {
    let mut owned = Vec::new();
    owned.try_reserve_exact(bytes.len()).map_err(|_| Mismatch::NoMemory)?;
    owned.extend_from_slice(bytes);
    Ok(owned)
}

/// A blob of just as many bytes, or for 16 a uuid or a timeuuid.
impl<'a, const N: usize> FromCell<'a> for [u8; N] {
    const KIND: Option<Kind> = if N == 16 { Some(Kind::Uuid) } else { Some(Kind::Blob) };

    #[inline]
    fn from_cell(cell: LentCell<'a, '_>) -> Result<Self, Mismatch> {
        let other = |came| Mismatch::Length { wanted: N, came };
        match cell {
            LentCell::Scalar(Scalar::Blob(bytes)) => bytes.try_into().map_err(|_| other(bytes.len())),
            LentCell::Scalar(Scalar::Uuid(bytes) | Scalar::Timeuuid(bytes)) => bytes[..].try_into().map_err(|_| other(bytes.len())),
            LentCell::Empty => [][..].try_into().map_err(|_| other(0)),
            cell => Err(cell.unlike("[u8; N]")),
        }
    }
}

/// None where the cell is null.
impl<'a, T: FromCell<'a>> FromCell<'a> for Option<T> {
    const KIND: Option<Kind> = T::KIND;

    #[inline(always)]
    fn from_cell(cell: LentCell<'a, '_>) -> Result<Self, Mismatch> {
        match cell {
            LentCell::Null => Ok(None),
            some => T::from_cell(some).map(Some),
        }
    }

    #[inline(always)]
    fn null() -> Option<Self> {
        Some(None)
    }
}

/// A cell of any type.
impl<'a> FromCell<'a> for Value {
    fn from_cell(cell: LentCell<'a, '_>) -> Result<Self, Mismatch> {
        Ok(match cell {
            LentCell::Null => Value::Null,
            LentCell::Empty => Value::Empty,
            LentCell::Scalar(scalar) => Value::Leaf(atom_of(scalar)?),
            LentCell::Items(items) => value_of(items)?,
        })
    }
}

/// The value with these items.
fn value_of(items: LentItems<'_, '_>) -> Result<Value, Mismatch> {
    let kind = items.kind();
    let mut values = Vec::new();
    values.try_reserve_exact(items.room()).map_err(|_| Mismatch::NoMemory)?;
    for item in items {
        values.push(Value::from_cell(item)?);
    }
    Ok(match kind {
        Kind::Map => Value::Map(pairs_of(values)),
        Kind::Set => Value::Set(values),
        Kind::Tuple => Value::Tuple(values),
        Kind::Udt => Value::Udt(values),
        _ => Value::List(values),
    })
}

/// Two by two.
fn pairs_of(values: Vec<Value>) -> Vec<(Value, Value)> {
    let mut rest = values.into_iter();
    core::iter::from_fn(|| Some((rest.next()?, rest.next()?))).collect()
}

/// A scalar, owned.
fn atom_of(scalar: Scalar<'_>) -> Result<Atom, Mismatch> {
    Ok(match scalar {
        Scalar::Custom(bytes) => Atom::Custom(copy_of(bytes)?),
        Scalar::Ascii(text) => Atom::Ascii(own(text)?),
        Scalar::Bigint(number) => Atom::Bigint(number),
        Scalar::Blob(bytes) => Atom::Blob(copy_of(bytes)?),
        Scalar::Boolean(truth) => Atom::Boolean(truth),
        Scalar::Counter(number) => Atom::Counter(number),
        Scalar::Decimal { scale, unscaled } => Atom::Decimal { scale, unscaled: copy_of(unscaled)? },
        Scalar::Double(bytes) => Atom::Double(bytes),
        Scalar::Float(bytes) => Atom::Float(bytes),
        Scalar::Int(number) => Atom::Int(number),
        Scalar::Timestamp(number) => Atom::Timestamp(number),
        Scalar::Uuid(bytes) => Atom::Uuid(bytes),
        Scalar::Varchar(text) => Atom::Varchar(own(text)?),
        Scalar::Varint(bytes) => Atom::Varint(copy_of(bytes)?),
        Scalar::Timeuuid(bytes) => Atom::Timeuuid(bytes),
        Scalar::Inet(address) => Atom::Inet(address),
        Scalar::Date(days) => Atom::Date(days),
        Scalar::Time(number) => Atom::Time(number),
        Scalar::Smallint(number) => Atom::Smallint(number),
        Scalar::Tinyint(number) => Atom::Tinyint(number),
        Scalar::Raw(bytes) => Atom::Raw(copy_of(bytes)?),
    })
}
