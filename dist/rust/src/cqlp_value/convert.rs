// Written by dist/erase from crates/cqlp_value/src/convert.rt.
//! Values of a program's own, as values of cells.

use crate::kit_std::prelude::{String, Vec};
use crate::cqlp_value::value::{Atom, Value};
use crate::cqlp_note::Address;
use core::net::{IpAddr, Ipv4Addr, Ipv6Addr};

/// The value of a cell that is this scalar, as [`Value::scalar`] makes it.
impl From<Atom> for Value {
    fn from(atom: Atom) -> Value {
        Value::scalar(atom)
    }
}

/// A tinyint.
impl From<i8> for Value {
    fn from(number: i8) -> Value {
        Value::Leaf(Atom::Tinyint(number))
    }
}

/// A smallint.
impl From<i16> for Value {
    fn from(number: i16) -> Value {
        Value::Leaf(Atom::Smallint(number))
    }
}

/// An int.
impl From<i32> for Value {
    fn from(number: i32) -> Value {
        Value::Leaf(Atom::Int(number))
    }
}

/// A bigint, as drivers take it. A counter, a timestamp and a time, which are of 64 bits too, are made of their [`Atom`].
impl From<i64> for Value {
    fn from(number: i64) -> Value {
        Value::Leaf(Atom::Bigint(number))
    }
}

/// A float. Each NaN is the one with the bytes 7f c0 00 00.
impl From<f32> for Value {
    fn from(number: f32) -> Value {
        let bits = if number.is_nan() {
            0x7fc0_0000
        } else {
            number.to_bits()
        };
        Value::Leaf(Atom::Float(bits.to_be_bytes()))
    }
}

/// A double. Each NaN is the one with the bytes 7f f8 and six of 00.
impl From<f64> for Value {
    fn from(number: f64) -> Value {
        let bits = if number.is_nan() {
            0x7ff8_0000_0000_0000
        } else {
            number.to_bits()
        };
        Value::Leaf(Atom::Double(bits.to_be_bytes()))
    }
}

/// A boolean.
impl From<bool> for Value {
    fn from(truth: bool) -> Value {
        Value::Leaf(Atom::Boolean(truth))
    }
}

/// A varchar, as drivers take it, and [`Value::Empty`] where the text is empty. An ascii is made of its [`Atom`].
impl From<String> for Value {
    fn from(text: String) -> Value {
        Value::scalar(Atom::Varchar(text))
    }
}

/// A blob, and [`Value::Empty`] where there are no bytes.
impl From<Vec<u8>> for Value {
    fn from(bytes: Vec<u8>) -> Value {
        Value::scalar(Atom::Blob(bytes))
    }
}

/// An inet of four bytes.
impl From<Ipv4Addr> for Value {
    fn from(address: Ipv4Addr) -> Value {
        Value::Leaf(Atom::Inet(Address::V4(address.octets())))
    }
}

/// An inet of sixteen bytes.
impl From<Ipv6Addr> for Value {
    fn from(address: Ipv6Addr) -> Value {
        Value::Leaf(Atom::Inet(Address::V6(address.octets())))
    }
}

/// An inet.
impl From<IpAddr> for Value {
    fn from(address: IpAddr) -> Value {
        match address {
            IpAddr::V4(address) => Value::from(address),
            IpAddr::V6(address) => Value::from(address),
        }
    }
}

/// The day that is the first of January 1970.
const EPOCH: i64 = 0x8000_0000;

/// Null where there is none.
impl<T: Into<Value>> From<Option<T>> for Value {
    fn from(value: Option<T>) -> Value {
        match value {
            Some(value) => value.into(),
            None => Value::Null,
        }
    }
}
