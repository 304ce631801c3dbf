//! Types for the scalars that Rust has no type for. Section 6 of `native_protocol_v4.spec`. The type `duration` is none of version 4.

use alloc::vec::Vec;
use core::fmt;

use crate::cqlp_kind::Scalar;
use crate::rows::cell::LentCell;
use crate::rows::error::Mismatch;
use crate::rows::from_cell::{FromCell, copy_of, scalars};

/// A counter.
#[derive(Clone, Copy, Debug, Default, PartialEq, Eq, PartialOrd, Ord, Hash)]
pub struct Counter(pub i64);

/// A day: 2^31 is the first of January 1970.
#[derive(Clone, Copy, Debug, PartialEq, Eq, PartialOrd, Ord, Hash)]
pub struct Date(pub u32);

impl Date {
    /// The day this many days after the first of January 1970; None where it is out of range.
    #[must_use]
    pub fn from_days(days: i64) -> Option<Date> {
        u32::try_from(days.checked_add(1 << 31)?).ok().map(Date)
    }

    /// How many days it is after the first of January 1970.
    #[must_use]
    pub fn days(self) -> i64 {
        i64::from(self.0) - (1 << 31)
    }
}

/// A time of a day, in nanoseconds since midnight, 0 to 86,399,999,999,999.
#[derive(Clone, Copy, Debug, Default, PartialEq, Eq, PartialOrd, Ord, Hash)]
pub struct Time(pub i64);

/// A moment, in milliseconds from the start of 1970.
#[derive(Clone, Copy, Debug, Default, PartialEq, Eq, PartialOrd, Ord, Hash)]
pub struct Timestamp(pub i64);

/// A uuid or a timeuuid, its bytes in their order.
#[derive(Clone, Copy, Default, PartialEq, Eq, PartialOrd, Ord, Hash)]
pub struct Uuid(pub [u8; 16]);

/// A timeuuid, its bytes in their order: a uuid of version 1.
#[derive(Clone, Copy, Default, PartialEq, Eq, PartialOrd, Ord, Hash)]
pub struct Timeuuid(pub [u8; 16]);

/// A varint, in two's complement, highest byte first, and not always in the shortest form.
#[derive(Clone, Debug, PartialEq, Eq, Hash)]
pub struct Varint(pub Vec<u8>);

/// A decimal: the unscaled number, divided by ten to the power of the scale.
#[derive(Clone, Debug, PartialEq, Eq, Hash)]
pub struct Decimal {
    /// The power of ten.
    pub scale: i32,
    /// The unscaled number.
    pub unscaled: Varint,
}

scalars! {
    Counter, Counter: Scalar::Counter(number) => Counter(number);
    Date, Date: Scalar::Date(days) => Date(days);
    Time, Time: Scalar::Time(number) => Time(number);
    Timestamp, Timestamp: Scalar::Timestamp(number) => Timestamp(number);
    Uuid, Uuid: Scalar::Uuid(bytes) => Uuid(bytes), Scalar::Timeuuid(bytes) => Uuid(bytes);
    Timeuuid, Timeuuid: Scalar::Timeuuid(bytes) => Timeuuid(bytes);
    Varint, Varint: Scalar::Varint(bytes) => Varint(copy_of(bytes)?);
    Decimal, Decimal: Scalar::Decimal { scale, unscaled } => Decimal { scale, unscaled: Varint(copy_of(unscaled)?) };
}

/// In the shortest form.
impl From<i128> for Varint {
    fn from(number: i128) -> Varint {
        let bytes = number.to_be_bytes();
        let is_sign = |pair: &[u8]| matches!((pair[0], pair[1] >> 7), (0, 0) | (0xff, 1));
        let from = bytes.windows(2).take_while(|pair| is_sign(pair)).count();
        Varint(bytes[from..].to_vec())
    }
}

/// In the shortest form.
impl From<i64> for Varint {
    fn from(number: i64) -> Varint {
        Varint::from(i128::from(number))
    }
}

impl Varint {
    /// The number; None where it has more than 128 bits. No bytes are 0.
    #[must_use]
    pub fn to_i128(&self) -> Option<i128> {
        let first = self.0.first().copied().unwrap_or(0);
        let sign = if first >> 7 == 1 { 0xff } else { 0 };
        let from = self.0.len().saturating_sub(16);
        let (front, rest) = self.0.split_at(from);
        if front.iter().any(|byte| *byte != sign) || (from > 0 && rest.first().is_some_and(|byte| byte >> 7 != sign >> 7)) {
            return None;
        }
        let mut bytes = [sign; 16];
        bytes[16 - rest.len()..].copy_from_slice(rest);
        Some(i128::from_be_bytes(bytes))
    }
}

/// With hyphens, in lower case.
fn fmt_uuid(bytes: &[u8; 16], f: &mut fmt::Formatter<'_>) -> fmt::Result {
    for (i, byte) in bytes.iter().enumerate() {
        if matches!(i, 4 | 6 | 8 | 10) {
            f.write_str("-")?;
        }
        write!(f, "{byte:02x}")?;
    }
    Ok(())
}

/// Implements `Display` and `Debug` for uuids: `6ba7b810-9dad-41d1-80b4-00c04fd430c8`.
macro_rules! shown {
    ($($type:ident)+) => {$(
        impl fmt::Display for $type {
            fn fmt(&self, f: &mut fmt::Formatter<'_>) -> fmt::Result {
                fmt_uuid(&self.0, f)
            }
        }

        impl fmt::Debug for $type {
            fn fmt(&self, f: &mut fmt::Formatter<'_>) -> fmt::Result {
                fmt_uuid(&self.0, f)
            }
        }
    )+};
}

shown! { Uuid Timeuuid }
