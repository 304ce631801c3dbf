// Written by dist/erase from crates/cqlp_kind/src/kind.rt.
//! The kinds of types.

/// What a type is. Section 4.2.5.2 of `native_protocol_v4.spec`. The type `duration` is none of version 4: its id, 0x0015, is that of
/// no kind, and a type option that has it is refused as `BadType`.
#[derive(Clone, Copy, Debug, PartialEq, Eq)]
pub enum Kind {
    /// Id 0x0000: the option has the name of a class, a \[string\], and its values are bytes that this class alone can explain.
    Custom,
    /// Id 0x0001: a text whose bytes are from 0 to 127. Section 6.1.
    Ascii,
    /// Id 0x0002: a signed number of 8 bytes. Section 6.2.
    Bigint,
    /// Id 0x0003: any bytes. Section 6.3.
    Blob,
    /// Id 0x0004: one byte, 0 for false and any other for true. Section 6.4.
    Boolean,
    /// Id 0x0005: the count of a counter column, a signed number of 8 bytes as of a bigint.
    Counter,
    /// Id 0x0006: a signed scale of 4 bytes, and a signed unscaled number of one byte or more. Section 6.6.
    Decimal,
    /// Id 0x0007: a binary64 of IEEE 754, of 8 bytes. Section 6.7.
    Double,
    /// Id 0x0008: a binary32 of IEEE 754, of 4 bytes. Section 6.8.
    Float,
    /// Id 0x0009: a signed number of 4 bytes. Section 6.10.
    Int,
    /// Id 0x000B: signed milliseconds from the start of 1970, of 8 bytes. Section 6.17.
    Timestamp,
    /// Id 0x000C: a uuid of any version, of 16 bytes. Section 6.21.
    Uuid,
    /// Id 0x000D: a text in UTF-8. Section 6.22.
    Varchar,
    /// Id 0x000E: a signed number in two's complement, of one byte or more. Section 6.23.
    Varint,
    /// Id 0x000F: a uuid of version 1, of 16 bytes. Section 6.18.
    Timeuuid,
    /// Id 0x0010: an address of IPv4, 4 bytes, or of IPv6, 16 bytes, without a port. Section 6.9.
    Inet,
    /// Id 0x0011: unsigned days of 4 bytes, of which 2^31 is the first of January 1970. Section 6.5.
    Date,
    /// Id 0x0012: nanoseconds since midnight, of 8 bytes, 0 to 86,399,999,999,999. Section 6.16.
    Time,
    /// Id 0x0013: a signed number of 2 bytes. Section 6.14.
    Smallint,
    /// Id 0x0014: a signed number of one byte. Section 6.19.
    Tinyint,
    /// Id 0x0020: the option has that of the elements in it; a value is their count, an \[int\], and each as \[bytes\]. Section 6.11.
    List,
    /// Id 0x0021: the option has that of the keys and that of the values in it; a value is a count of pairs, an \[int\], and each key and value
    /// as \[bytes\]. Section 6.12.
    Map,
    /// Id 0x0022: the option has that of the elements in it; a value is written as a list is. Section 6.13.
    Set,
    /// Id 0x0030: the option has a keyspace, a name, a \[short\] count, and the name and the option of each field; a value has each field as
    /// \[bytes\], of which the last ones may be left out. Section 7.
    Udt,
    /// Id 0x0031: the option has a \[short\] count and the option of each item; a value has each item as \[bytes\], of which the last ones may
    /// be left out. Section 6.20.
    Tuple,
    /// The kind of a cell whose type is not known. A table has it only after a lenient reading, for a type with an unknown id.
    Raw,
}

impl Kind {
    /// Whether a value of this kind has no items: all but lists, maps, sets, user-defined types and tuples.
    #[must_use]
    pub fn is_scalar(self) -> bool {
        !matches!(
            self,
            Kind::List | Kind::Map | Kind::Set | Kind::Udt | Kind::Tuple
        )
    }

    /// The kind whose type option has this id, if one has.
    #[must_use]
    pub fn from_id(id: u16) -> Option<Kind> {
        match id {
            0x00 => Some(Kind::Custom),
            0x01 => Some(Kind::Ascii),
            0x02 => Some(Kind::Bigint),
            0x03 => Some(Kind::Blob),
            0x04 => Some(Kind::Boolean),
            0x05 => Some(Kind::Counter),
            0x06 => Some(Kind::Decimal),
            0x07 => Some(Kind::Double),
            0x08 => Some(Kind::Float),
            0x09 => Some(Kind::Int),
            0x0B => Some(Kind::Timestamp),
            0x0C => Some(Kind::Uuid),
            0x0D => Some(Kind::Varchar),
            0x0E => Some(Kind::Varint),
            0x0F => Some(Kind::Timeuuid),
            0x10 => Some(Kind::Inet),
            0x11 => Some(Kind::Date),
            0x12 => Some(Kind::Time),
            0x13 => Some(Kind::Smallint),
            0x14 => Some(Kind::Tinyint),
            0x20 => Some(Kind::List),
            0x21 => Some(Kind::Map),
            0x22 => Some(Kind::Set),
            0x30 => Some(Kind::Udt),
            0x31 => Some(Kind::Tuple),
            _ => None,
        }
    }

    /// The id of its type option, which the kind of an unknown type has not.
    pub(crate) fn id(self) -> u16 {
        match self {
            Kind::Custom => 0x00,
            Kind::Ascii => 0x01,
            Kind::Bigint => 0x02,
            Kind::Blob => 0x03,
            Kind::Boolean => 0x04,
            Kind::Counter => 0x05,
            Kind::Decimal => 0x06,
            Kind::Double => 0x07,
            Kind::Float => 0x08,
            Kind::Int => 0x09,
            Kind::Timestamp => 0x0B,
            Kind::Uuid => 0x0C,
            Kind::Varchar => 0x0D,
            Kind::Varint => 0x0E,
            Kind::Timeuuid => 0x0F,
            Kind::Inet => 0x10,
            Kind::Date => 0x11,
            Kind::Time => 0x12,
            Kind::Smallint => 0x13,
            Kind::Tinyint => 0x14,
            Kind::List => 0x20,
            Kind::Map => 0x21,
            Kind::Set => 0x22,
            Kind::Udt => 0x30,
            Kind::Tuple => 0x31,
            Kind::Raw => unreachable!(),
        }
    }

    /// How many inner types each type of this kind has; 0 where they are counted.
    #[must_use]
    pub fn arity(self) -> u16 {
        match self {
            Kind::List | Kind::Set => 1,
            Kind::Map => 2,
            _ => 0,
        }
    }

    /// Whether it is one of the 19 kinds whose options have no parameters.
    #[must_use]
    pub fn is_plain(self) -> bool {
        !matches!(
            self,
            Kind::Custom | Kind::List | Kind::Map | Kind::Set | Kind::Udt | Kind::Tuple | Kind::Raw
        )
    }
}
