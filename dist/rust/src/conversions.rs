//! From std's types to the package's and back. Written by hand, and not proved.
use alloc::string::String;
use alloc::vec::Vec;
use core::error::Error;
use core::fmt;
use core::net::{IpAddr, SocketAddr};

use crate::cqlp_note::Address;
use crate::cqlp_tcp_segment::{Endpoint, IpAddress};
use crate::cqlp_value::{Atom, Value};

macro_rules! of_addresses {
    ($($address:ident)*) => {
        $(
            impl From<IpAddr> for $address {
                fn from(ip: IpAddr) -> Self {
                    match ip {
                        IpAddr::V4(ip) => $address::V4(ip.octets()),
                        IpAddr::V6(ip) => $address::V6(ip.octets()),
                    }
                }
            }

            impl From<$address> for IpAddr {
                fn from(address: $address) -> Self {
                    match address {
                        $address::V4(octets) => octets.into(),
                        $address::V6(octets) => octets.into(),
                    }
                }
            }
        )*
    };
}

of_addresses! { Address IpAddress }

impl From<SocketAddr> for Endpoint {
    fn from(socket: SocketAddr) -> Self {
        Endpoint { address: socket.ip().into(), port: socket.port() }
    }
}

impl From<Endpoint> for SocketAddr {
    fn from(end: Endpoint) -> Self {
        SocketAddr::new(end.address.into(), end.port)
    }
}

/// A varchar, and [`Value::Empty`] where the text is empty. Memory is asked for as std does.
impl From<&str> for Value {
    fn from(text: &str) -> Value {
        String::from(text).into()
    }
}

/// A value that is none of a Rust type, and comes back.
#[derive(Clone, Debug, PartialEq, Eq)]
pub struct OtherValue {
    /// The Rust type.
    pub wanted: &'static str,
    /// The value.
    pub value: Value,
}

impl fmt::Display for OtherValue {
    fn fmt(&self, f: &mut fmt::Formatter<'_>) -> fmt::Result {
        write!(f, "{} is wanted, and {:?} is given", self.wanted, self.value)
    }
}

impl Error for OtherValue {}

/// From values to these types, each of which reads what the pattern says.
macro_rules! from_values {
    ($($type:ty: $($pattern:pat => $made:expr),+;)+) => {$(
        impl TryFrom<Value> for $type {
            type Error = OtherValue;

            fn try_from(value: Value) -> Result<$type, OtherValue> {
                match value {
                    $($pattern => Ok($made),)+
                    value => Err(OtherValue { wanted: stringify!($type), value }),
                }
            }
        }
    )+};
}

from_values! {
    i8: Value::Leaf(Atom::Tinyint(number)) => number;
    i16: Value::Leaf(Atom::Smallint(number)) => number;
    i32: Value::Leaf(Atom::Int(number)) => number;
    i64: Value::Leaf(Atom::Bigint(number)) => number;
    f32: Value::Leaf(Atom::Float(bytes)) => f32::from_be_bytes(bytes);
    f64: Value::Leaf(Atom::Double(bytes)) => f64::from_be_bytes(bytes);
    bool: Value::Leaf(Atom::Boolean(truth)) => truth;
    IpAddr: Value::Leaf(Atom::Inet(address)) => address.into();
    String: Value::Leaf(Atom::Varchar(text) | Atom::Ascii(text)) => text, Value::Empty => String::new();
    Vec<u8>: Value::Leaf(Atom::Blob(bytes) | Atom::Custom(bytes) | Atom::Raw(bytes)) => bytes, Value::Empty => Vec::new();
}
