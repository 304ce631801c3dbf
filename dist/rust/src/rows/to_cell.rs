//! Rust types, as values of columns.

use alloc::borrow::ToOwned;
use alloc::collections::{BTreeMap, BTreeSet};
use alloc::string::String;
use alloc::vec::Vec;
use core::net::{IpAddr, Ipv4Addr, Ipv6Addr};
#[cfg(feature = "std")]
use std::collections::{HashMap, HashSet};

use crate::cqlp_encode::bind_value;
use crate::cqlp_kind::Kind;
use crate::cqlp_message::OwnedBound;
use crate::cqlp_type::TypeTree;
use crate::cqlp_value::{Atom, Value};
use crate::rows::bind::Unbound;
use crate::rows::newtypes::{Counter, Date, Decimal, Time, Timestamp, Timeuuid, Uuid, Varint};

/// A type that is written as a value of a column, or of an item of one. Section 6 of `native_protocol_v4.spec`.
///
/// A newtype of the caller's is written as its inner type:
///
/// ```
/// use cqlp::frame::{TypeTree, Value};
/// use cqlp::rows::{ToCell, Unbound};
///
/// struct Cents(i64);
///
/// impl ToCell for Cents {
///     fn to_cell(&self, of: &TypeTree) -> Result<Value, Unbound> {
///         self.0.to_cell(of)
///     }
/// }
/// ```
pub trait ToCell {
    /// The value of this type.
    ///
    /// # Errors
    ///
    /// [`Unbound::Type`] where the Rust type writes none of the type.
    fn to_cell(&self, of: &TypeTree) -> Result<Value, Unbound>;

    /// The value as it is bound to a statement.
    ///
    /// # Errors
    ///
    /// As [`ToCell::to_cell`]; and [`Unbound::Value`] where [`bind_value`] finds that the value is out of the range of the type, as a
    /// time past the end of a day, or too long, and where memory is refused.
    fn to_bound(&self, of: &TypeTree) -> Result<OwnedBound, Unbound> {
        bind_value(&self.to_cell(of)?, Some(of)).map_err(Unbound::Value)
    }
}

/// The kind of a type.
pub(crate) fn kind_of(of: &TypeTree) -> Kind {
    match of {
        TypeTree::Plain(kind) => *kind,
        TypeTree::Custom(_) => Kind::Custom,
        TypeTree::List(_) => Kind::List,
        TypeTree::Set(_) => Kind::Set,
        TypeTree::Map(..) => Kind::Map,
        TypeTree::Udt { .. } => Kind::Udt,
        TypeTree::Tuple(_) => Kind::Tuple,
    }
}

fn unlike(given: &'static str, of: &TypeTree) -> Unbound {
    Unbound::Type { given, wanted: kind_of(of) }
}

/// Implements `ToCell` for types by the kind of columns that each writes.
macro_rules! scalars {
    ($($type:ty, $self:ident: $($kind:ident => $atom:expr),+;)+) => {$(
        impl ToCell for $type {
            fn to_cell(&$self, of: &TypeTree) -> Result<Value, Unbound> {
                match kind_of(of) {
                    $(Kind::$kind => Ok(Value::scalar($atom)),)+
                    _ => Err(unlike(stringify!($type), of)),
                }
            }
        }
    )+};
}

scalars! {
    i8, self: Tinyint => Atom::Tinyint(*self);
    i16, self: Smallint => Atom::Smallint(*self);
    i32, self: Int => Atom::Int(*self);
    i64, self: Bigint => Atom::Bigint(*self);
    f32, self: Float => Atom::Float(self.to_be_bytes());
    f64, self: Double => Atom::Double(self.to_be_bytes());
    bool, self: Boolean => Atom::Boolean(*self);
    str, self: Varchar => Atom::Varchar(self.to_owned()), Ascii => Atom::Ascii(self.to_owned());
    Counter, self: Counter => Atom::Counter(self.0);
    Date, self: Date => Atom::Date(self.0);
    Time, self: Time => Atom::Time(self.0);
    Timestamp, self: Timestamp => Atom::Timestamp(self.0);
    Uuid, self: Uuid => Atom::Uuid(self.0), Timeuuid => Atom::Timeuuid(self.0);
    Timeuuid, self: Timeuuid => Atom::Timeuuid(self.0), Uuid => Atom::Uuid(self.0);
    Varint, self: Varint => Atom::Varint(self.0.clone());
    Decimal, self: Decimal => Atom::Decimal { scale: self.scale, unscaled: self.unscaled.0.clone() };
}

impl ToCell for IpAddr {
    fn to_cell(&self, of: &TypeTree) -> Result<Value, Unbound> {
        match kind_of(of) {
            Kind::Inet => Ok(Value::from(*self)),
            _ => Err(unlike("IpAddr", of)),
        }
    }
}

impl ToCell for Ipv4Addr {
    fn to_cell(&self, of: &TypeTree) -> Result<Value, Unbound> {
        IpAddr::from(*self).to_cell(of)
    }
}

impl ToCell for Ipv6Addr {
    fn to_cell(&self, of: &TypeTree) -> Result<Value, Unbound> {
        IpAddr::from(*self).to_cell(of)
    }
}

impl ToCell for String {
    fn to_cell(&self, of: &TypeTree) -> Result<Value, Unbound> {
        self.as_str().to_cell(of)
    }
}

/// A blob, or a custom type.
impl ToCell for [u8] {
    fn to_cell(&self, of: &TypeTree) -> Result<Value, Unbound> {
        match kind_of(of) {
            Kind::Blob => Ok(Value::scalar(Atom::Blob(self.to_vec()))),
            Kind::Custom => Ok(Value::scalar(Atom::Custom(self.to_vec()))),
            _ => Err(unlike("[u8]", of)),
        }
    }
}

/// A blob, or a custom type.
impl ToCell for Vec<u8> {
    fn to_cell(&self, of: &TypeTree) -> Result<Value, Unbound> {
        self.as_slice().to_cell(of)
    }
}

/// A blob, or for 16 bytes a uuid or a timeuuid.
impl<const N: usize> ToCell for [u8; N] {
    fn to_cell(&self, of: &TypeTree) -> Result<Value, Unbound> {
        match (kind_of(of), <[u8; 16]>::try_from(&self[..])) {
            (Kind::Uuid | Kind::Timeuuid, Ok(bytes)) => Uuid(bytes).to_cell(of),
            _ => self[..].to_cell(of),
        }
    }
}

/// What it refers to.
impl<T: ToCell + ?Sized> ToCell for &T {
    fn to_cell(&self, of: &TypeTree) -> Result<Value, Unbound> {
        (**self).to_cell(of)
    }

    fn to_bound(&self, of: &TypeTree) -> Result<OwnedBound, Unbound> {
        (**self).to_bound(of)
    }
}

/// Null where there is none.
impl<T: ToCell> ToCell for Option<T> {
    fn to_cell(&self, of: &TypeTree) -> Result<Value, Unbound> {
        self.as_ref().map_or(Ok(Value::Null), |value| value.to_cell(of))
    }
}

/// A value that is not set, so that the server keeps what it has. Section 3 of `native_protocol_v4.spec`. As an item of another value it
/// is null.
#[derive(Clone, Copy, Debug, PartialEq, Eq)]
pub struct Unset;

impl ToCell for Unset {
    fn to_cell(&self, _of: &TypeTree) -> Result<Value, Unbound> {
        Ok(Value::Null)
    }

    fn to_bound(&self, _of: &TypeTree) -> Result<OwnedBound, Unbound> {
        Ok(OwnedBound::Unset)
    }
}

/// The values of a list or a set with these items.
fn list_of<'a, T: ToCell + 'a>(items: impl Iterator<Item = &'a T>, of: &TypeTree, given: &'static str) -> Result<Value, Unbound> {
    let all = |inner| items.map(|item| item.to_cell(inner)).collect::<Result<Vec<_>, _>>();
    match of {
        TypeTree::List(inner) => Ok(Value::List(all(inner)?)),
        TypeTree::Set(inner) => Ok(Value::Set(all(inner)?)),
        _ => Err(unlike(given, of)),
    }
}

/// The value of a map with these pairs.
fn map_of<'a, K: ToCell + 'a, V: ToCell + 'a>(
    pairs: impl Iterator<Item = (&'a K, &'a V)>,
    of: &TypeTree,
    given: &'static str,
) -> Result<Value, Unbound> {
    let TypeTree::Map(keys, values) = of else {
        return Err(unlike(given, of));
    };
    let pairs = pairs.map(|(key, value)| Ok((key.to_cell(keys)?, value.to_cell(values)?)));
    Ok(Value::Map(pairs.collect::<Result<Vec<_>, _>>()?))
}

impl<T: ToCell> ToCell for [T] {
    fn to_cell(&self, of: &TypeTree) -> Result<Value, Unbound> {
        list_of(self.iter(), of, "[_]")
    }
}

impl<T: ToCell> ToCell for Vec<T> {
    fn to_cell(&self, of: &TypeTree) -> Result<Value, Unbound> {
        list_of(self.iter(), of, "Vec<_>")
    }
}

impl<T: ToCell> ToCell for BTreeSet<T> {
    fn to_cell(&self, of: &TypeTree) -> Result<Value, Unbound> {
        list_of(self.iter(), of, "BTreeSet<_>")
    }
}

impl<K: ToCell, V: ToCell> ToCell for BTreeMap<K, V> {
    fn to_cell(&self, of: &TypeTree) -> Result<Value, Unbound> {
        map_of(self.iter(), of, "BTreeMap<_, _>")
    }
}

#[cfg(feature = "std")]
impl<T: ToCell, S> ToCell for HashSet<T, S> {
    fn to_cell(&self, of: &TypeTree) -> Result<Value, Unbound> {
        list_of(self.iter(), of, "HashSet<_>")
    }
}

#[cfg(feature = "std")]
impl<K: ToCell, V: ToCell, S> ToCell for HashMap<K, V, S> {
    fn to_cell(&self, of: &TypeTree) -> Result<Value, Unbound> {
        map_of(self.iter(), of, "HashMap<_, _>")
    }
}

/// The value of any type, as it is: [`fits`](crate::frame::fits) says of which.
impl ToCell for Value {
    fn to_cell(&self, of: &TypeTree) -> Result<Value, Unbound> {
        Ok(copy_of(self))
    }

    fn to_bound(&self, of: &TypeTree) -> Result<OwnedBound, Unbound> {
        bind_value(self, Some(of)).map_err(Unbound::Value)
    }
}

/// The same value, with contents of its own.
fn copy_of(value: &Value) -> Value {
    let all = |items: &[Value]| items.iter().map(copy_of).collect::<Vec<_>>();
    match value {
        Value::Null => Value::Null,
        Value::Empty => Value::Empty,
        Value::Leaf(atom) => Value::Leaf(copy_of_atom(atom)),
        Value::List(items) => Value::List(all(items)),
        Value::Set(items) => Value::Set(all(items)),
        Value::Tuple(items) => Value::Tuple(all(items)),
        Value::Udt(items) => Value::Udt(all(items)),
        Value::Map(pairs) => Value::Map(pairs.iter().map(|(key, value)| (copy_of(key), copy_of(value))).collect::<Vec<_>>()),
    }
}

/// The same scalar, with bytes of its own.
fn copy_of_atom(atom: &Atom) -> Atom {
    match atom {
        Atom::Custom(bytes) => Atom::Custom(bytes.to_vec()),
        Atom::Ascii(text) => Atom::Ascii(text.as_str().to_owned()),
        Atom::Bigint(number) => Atom::Bigint(*number),
        Atom::Blob(bytes) => Atom::Blob(bytes.to_vec()),
        Atom::Boolean(truth) => Atom::Boolean(*truth),
        Atom::Counter(number) => Atom::Counter(*number),
        Atom::Decimal { scale, unscaled } => Atom::Decimal { scale: *scale, unscaled: unscaled.to_vec() },
        Atom::Double(bytes) => Atom::Double(*bytes),
        Atom::Float(bytes) => Atom::Float(*bytes),
        Atom::Int(number) => Atom::Int(*number),
        Atom::Timestamp(number) => Atom::Timestamp(*number),
        Atom::Uuid(bytes) => Atom::Uuid(*bytes),
        Atom::Varchar(text) => Atom::Varchar(text.as_str().to_owned()),
        Atom::Varint(bytes) => Atom::Varint(bytes.to_vec()),
        Atom::Timeuuid(bytes) => Atom::Timeuuid(*bytes),
        Atom::Inet(address) => Atom::Inet(*address),
        Atom::Date(days) => Atom::Date(*days),
        Atom::Time(number) => Atom::Time(*number),
        Atom::Smallint(number) => Atom::Smallint(*number),
        Atom::Tinyint(number) => Atom::Tinyint(*number),
        Atom::Raw(bytes) => Atom::Raw(bytes.to_vec()),
    }
}

/// Implements `ToCell` for tuples of these types.
macro_rules! tuples {
    ($($type:ident $place:tt)+; $width:literal) => {
        /// A tuple or a user-defined type with as many fields or more, by their places.
        impl<$($type: ToCell),+> ToCell for ($($type,)+) {
            fn to_cell(&self, of: &TypeTree) -> Result<Value, Unbound> {
                match of {
                    TypeTree::Tuple(types) if types.len() >= $width => {
                        Ok(Value::Tuple(Vec::from([$(self.$place.to_cell(&types[$place])?),+]).into()))
                    }
                    TypeTree::Udt { fields, .. } if fields.len() >= $width => {
                        Ok(Value::Udt(Vec::from([$(self.$place.to_cell(&fields[$place].1)?),+]).into()))
                    }
                    _ => Err(unlike(concat!("a tuple of ", $width), of)),
                }
            }
        }
    };
}

tuples! { A 0; 1 }
tuples! { A 0 B 1; 2 }
tuples! { A 0 B 1 C 2; 3 }
tuples! { A 0 B 1 C 2 D 3; 4 }
tuples! { A 0 B 1 C 2 D 3 E 4; 5 }
tuples! { A 0 B 1 C 2 D 3 E 4 F 5; 6 }
tuples! { A 0 B 1 C 2 D 3 E 4 F 5 G 6; 7 }
tuples! { A 0 B 1 C 2 D 3 E 4 F 5 G 6 H 7; 8 }
tuples! { A 0 B 1 C 2 D 3 E 4 F 5 G 6 H 7 I 8; 9 }
tuples! { A 0 B 1 C 2 D 3 E 4 F 5 G 6 H 7 I 8 J 9; 10 }
tuples! { A 0 B 1 C 2 D 3 E 4 F 5 G 6 H 7 I 8 J 9 K 10; 11 }
tuples! { A 0 B 1 C 2 D 3 E 4 F 5 G 6 H 7 I 8 J 9 K 10 L 11; 12 }
