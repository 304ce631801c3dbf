// Written by dist/erase from crates/cqlp_kind/src/scalars.rt.
//! What scalar cells hold.

use crate::cqlp_note::Address;

/// What a scalar cell holds, by its kind. Section 6 of `native_protocol_v4.spec`; numbers have their highest byte
/// first, and are signed unless said otherwise.
#[derive(Clone, Copy, Debug, PartialEq, Eq)]
pub enum Scalar<'a> {
    /// The bytes of a value of a custom type, which its class alone can explain.
    Custom(&'a [u8]),
    /// A text whose bytes are from 0 to 127. Section 6.1.
    Ascii(&'a str),
    /// Eight bytes. Section 6.2.
    Bigint(i64),
    /// Any bytes. Section 6.3.
    Blob(&'a [u8]),
    /// False is one byte of 0, and true of anything else.
    Boolean(bool),
    /// The count of a counter column, of eight bytes as a bigint.
    Counter(i64),
    /// The unscaled number, divided by ten to the power of the scale.
    Decimal {
        /// How many digits of the unscaled number lie behind the decimal point; a negative scale adds as many zeros to it. Section 6.6.
        scale: i32,
        /// In two's complement, at least one byte, and not always the shortest form.
        unscaled: &'a [u8],
    },
    /// The bytes of a binary64 of IEEE 754.
    Double([u8; 8]),
    /// The bytes of a binary32 of IEEE 754.
    Float([u8; 4]),
    /// Four bytes. Section 6.10.
    Int(i32),
    /// Milliseconds from the start of 1970.
    Timestamp(i64),
    /// The bytes of a uuid of any version, in their order. Section 6.21.
    Uuid([u8; 16]),
    /// A text in UTF-8. Section 6.22.
    Varchar(&'a str),
    /// In two's complement, and not always the shortest form.
    Varint(&'a [u8]),
    /// A uuid of version 1.
    Timeuuid([u8; 16]),
    /// An address of IPv4 or IPv6, without a port. Section 6.9.
    Inet(Address),
    /// Days, unsigned, of which 2^31 is the first of January 1970.
    Date(u32),
    /// Nanoseconds since midnight, 0 to 86,399,999,999,999.
    Time(i64),
    /// Two bytes. Section 6.14.
    Smallint(i16),
    /// One byte. Section 6.19.
    Tinyint(i8),
    /// A content whose type is not known; in a lenient reading also one that its type does not have.
    Raw(&'a [u8]),
}
