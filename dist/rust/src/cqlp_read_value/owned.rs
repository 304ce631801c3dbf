// Written by dist/erase from crates/cqlp_read_value/src/owned.rt.
//! Scalars that are owned.

use crate::kit_std::prelude::{KitString, KitVec, String, Vec};
use crate::cqlp_value::{Atom, Scalar};
use crate::kit_std::alloc::{AllocError};

/// The same scalar, with bytes of its own.
#[inline]
pub fn own(scalar: Scalar<'_>) -> Result<Atom, AllocError> {
    let atom = match scalar {
        Scalar::Custom(bytes) => Atom::Custom(Vec::from_slice(bytes)?),
        Scalar::Ascii(text) => Atom::Ascii(String::from_str(text)?),
        Scalar::Bigint(number) => Atom::Bigint(number),
        Scalar::Blob(bytes) => Atom::Blob(Vec::from_slice(bytes)?),
        Scalar::Boolean(value) => Atom::Boolean(value),
        Scalar::Counter(number) => Atom::Counter(number),
        Scalar::Decimal { scale, unscaled } => Atom::Decimal {
            scale,
            unscaled: Vec::from_slice(unscaled)?,
        },
        Scalar::Double(bytes) => Atom::Double(bytes),
        Scalar::Float(bytes) => Atom::Float(bytes),
        Scalar::Int(number) => Atom::Int(number),
        Scalar::Timestamp(number) => Atom::Timestamp(number),
        Scalar::Uuid(bytes) => Atom::Uuid(bytes),
        Scalar::Varchar(text) => Atom::Varchar(String::from_str(text)?),
        Scalar::Varint(bytes) => Atom::Varint(Vec::from_slice(bytes)?),
        Scalar::Timeuuid(bytes) => Atom::Timeuuid(bytes),
        Scalar::Inet(address) => Atom::Inet(address),
        Scalar::Date(days) => Atom::Date(days),
        Scalar::Time(number) => Atom::Time(number),
        Scalar::Smallint(number) => Atom::Smallint(number),
        Scalar::Tinyint(number) => Atom::Tinyint(number),
        Scalar::Raw(bytes) => Atom::Raw(Vec::from_slice(bytes)?),
    };
    Ok(atom)
}
