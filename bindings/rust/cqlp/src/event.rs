//! Events, as the library puts them.

use crate::names::{Field, Kind, Opcode};
use cqlp_sys as sys;
use std::error::Error;
use std::fmt;
use std::net::{IpAddr, Ipv4Addr, Ipv6Addr};

/// An event, whose content is lent by the decoder or the piece. `to_string` gives the line that `cqlp show` writes.
#[derive(Clone, Copy, Debug, PartialEq)]
pub struct Event<'a> {
    /// The offset in the stream of the event's field; an end's is the frame's end.
    pub at: u64,
    /// What it is.
    pub what: What<'a>,
}

/// What an event is.
#[derive(Clone, Copy, Debug, PartialEq)]
#[non_exhaustive]
pub enum What<'a> {
    /// A frame begins.
    Frame(Frame),
    /// A `[byte]`.
    Byte(Field, u8),
    /// A `[short]`.
    Short(Field, u16),
    /// An `[int]`.
    Int(Field, i32),
    /// A `[long]`.
    Long(Field, i64),
    /// A `[uuid]`.
    Uuid(Field, [u8; 16]),
    /// How many items follow.
    Count(Field, u32),
    /// A `[string]` or a `[long string]`.
    Text(Field, &'a str),
    /// `[bytes]`, or null.
    Bytes(Field, Option<&'a [u8]>),
    /// A `[value]`.
    Bound(Field, Bound<'a>),
    /// An `[inet]`: an address and a port.
    Inet(Field, IpAddr, i32),
    /// A type option; its parameters follow.
    TypeNode(Kind),
    /// A scalar in a cell.
    Leaf(Place, Scalar<'a>),
    /// A value of a negative length.
    Null(Place),
    /// A value of no bytes.
    Empty(Place),
    /// A value with items begins.
    Enter {
        /// Where it is.
        place: Place,
        /// Its kind.
        kind: Kind,
        /// How many items it says; pairs of a map.
        items: u32,
    },
    /// A value with items ends.
    Leave {
        /// The number of values around it.
        level: u32,
        /// How many items it had.
        items: u32,
    },
    /// A part of a long scalar.
    Part {
        /// Where the scalar is.
        place: Place,
        /// The offset of the part in its content.
        offset: u32,
        /// The part's bytes.
        bytes: &'a [u8],
        /// Whether it is the last one.
        last: bool,
    },
    /// The frame ends; how many bytes came after its last field.
    End(u32),
    /// A tag that has no name here.
    Other(u8),
}

/// The header of a frame. Section 2.
#[derive(Clone, Copy, Debug, PartialEq, Eq)]
pub struct Frame {
    /// Whether it is a response, else a request.
    pub response: bool,
    /// Section 2.2.
    pub flags: u8,
    /// Section 2.3.
    pub stream: i16,
    /// Section 2.4.
    pub opcode: Opcode,
    /// The bytes of the body.
    pub length: u32,
}

/// A bound value.
#[derive(Clone, Copy, Debug, PartialEq, Eq)]
pub enum Bound<'a> {
    /// Null.
    Null,
    /// Not set.
    Unset,
    /// Its bytes.
    Bytes(&'a [u8]),
}

/// Where a value is.
#[derive(Clone, Copy, Debug, PartialEq, Eq)]
pub struct Place {
    /// The row of its page, from 0.
    pub row: u32,
    /// The column, from 0.
    pub column: u32,
    /// The number of values around it: 0 for the cell itself.
    pub level: u32,
}

/// A scalar. `to_string` gives its text in a page of `cqlp rows`.
#[derive(Clone, Copy, Debug, PartialEq)]
#[non_exhaustive]
pub enum Scalar<'a> {
    /// A custom type's bytes.
    Custom(&'a [u8]),
    /// A text of bytes below 80.
    Ascii(&'a str),
    /// A number.
    Bigint(i64),
    /// Bytes.
    Blob(&'a [u8]),
    /// A truth value.
    Boolean(bool),
    /// A number.
    Counter(i64),
    /// An unscaled number in two's complement, the highest byte first, and how many of its decimal digits are after the point.
    Decimal {
        /// The scale.
        scale: i32,
        /// The unscaled number.
        unscaled: &'a [u8],
    },
    /// A binary64.
    Double(f64),
    /// A binary32.
    Float(f32),
    /// A number.
    Int(i32),
    /// Milliseconds from 1970.
    Timestamp(i64),
    /// A uuid.
    Uuid([u8; 16]),
    /// A text.
    Varchar(&'a str),
    /// A number in two's complement, the highest byte first.
    Varint(&'a [u8]),
    /// A uuid of version 1.
    Timeuuid([u8; 16]),
    /// An address.
    Inet(IpAddr),
    /// Days, of which 2^31 is the first of January 1970.
    Date(u32),
    /// Nanoseconds since midnight.
    Time(i64),
    /// A number.
    Smallint(i16),
    /// A number.
    Tinyint(i8),
    /// The bytes of a cell whose type is not known.
    Raw(&'a [u8]),
    /// The bytes of a kind that has no name here.
    Other(Kind, &'a [u8]),
}

/// A sink that gives up.
#[derive(Clone, Copy, Debug, PartialEq, Eq)]
pub struct SinkFault;

impl fmt::Display for SinkFault {
    fn fmt(&self, f: &mut fmt::Formatter<'_>) -> fmt::Result {
        f.write_str("the sink gave up")
    }
}

impl Error for SinkFault {}

/// What takes the events of a stream, one after the other.
pub trait Sink {
    /// Takes the event at an offset, which is `event.at`.
    fn take(&mut self, at: u64, event: &Event<'_>) -> Result<(), SinkFault>;
}

impl<'a> Event<'a> {
    /// The event as Rust's types have it.
    ///
    /// # Safety
    ///
    /// The library put it, and its content stays as it is for the lifetime.
    pub(crate) unsafe fn of(raw: &sys::cqlp_event) -> Event<'a> {
        Event {
            at: raw.at,
            what: what_of(raw, content_of(raw)),
        }
    }
}

/// The content.
///
/// # Safety
///
/// As of [`Event::of`].
unsafe fn content_of<'a>(raw: &sys::cqlp_event) -> &'a [u8] {
    if raw.length == 0 {
        return &[];
    }
    std::slice::from_raw_parts(raw.content, raw.length)
}

/// A content that the library says is UTF-8.
///
/// # Safety
///
/// It is UTF-8.
unsafe fn text_of(content: &[u8]) -> &str {
    debug_assert!(std::str::from_utf8(content).is_ok());
    std::str::from_utf8_unchecked(content)
}

/// What an event is.
///
/// # Safety
///
/// The library put it, so what it says is a text is UTF-8, and each number is one of its notation.
unsafe fn what_of<'a>(raw: &sys::cqlp_event, content: &'a [u8]) -> What<'a> {
    let field = Field::of(raw.field);
    match raw.tag {
        sys::CQLP_TAG_FRAME => What::Frame(frame_of(raw)),
        sys::CQLP_TAG_BYTE => What::Byte(field, raw.number as u8),
        sys::CQLP_TAG_SHORT => What::Short(field, raw.number as u16),
        sys::CQLP_TAG_INT => What::Int(field, raw.number as i32),
        sys::CQLP_TAG_LONG => What::Long(field, raw.number),
        sys::CQLP_TAG_UUID => What::Uuid(field, raw.bytes),
        sys::CQLP_TAG_COUNT => What::Count(field, raw.number as u32),
        sys::CQLP_TAG_TEXT => What::Text(field, text_of(content)),
        sys::CQLP_TAG_BYTES => What::Bytes(field, (raw.mark != sys::CQLP_MARK_NULL).then_some(content)),
        sys::CQLP_TAG_BOUND => What::Bound(field, bound_of(raw, content)),
        sys::CQLP_TAG_INET => What::Inet(field, address_of(raw), raw.extra),
        sys::CQLP_TAG_TYPE_NODE => What::TypeNode(Kind::of(raw.kind)),
        sys::CQLP_TAG_END => What::End(raw.number as u32),
        _ => cell_of(raw, content),
    }
}

/// What an event of a cell is.
///
/// # Safety
///
/// As of [`what_of`].
unsafe fn cell_of<'a>(raw: &sys::cqlp_event, content: &'a [u8]) -> What<'a> {
    let place = place_of(raw);
    match raw.tag {
        sys::CQLP_TAG_LEAF => What::Leaf(place, scalar_of(raw, content)),
        sys::CQLP_TAG_NULL => What::Null(place),
        sys::CQLP_TAG_EMPTY => What::Empty(place),
        sys::CQLP_TAG_ENTER => What::Enter {
            place,
            kind: Kind::of(raw.kind),
            items: raw.number as u32,
        },
        sys::CQLP_TAG_LEAVE => What::Leave {
            level: raw.level,
            items: raw.number as u32,
        },
        sys::CQLP_TAG_PART => What::Part {
            place,
            offset: raw.number as u32,
            bytes: content,
            last: raw.mark == sys::CQLP_MARK_LAST,
        },
        other => What::Other(other),
    }
}

fn frame_of(raw: &sys::cqlp_event) -> Frame {
    Frame {
        response: raw.mark == sys::CQLP_MARK_RESPONSE,
        flags: raw.flags,
        stream: raw.extra as i16,
        opcode: Opcode::of(raw.opcode),
        length: raw.number as u32,
    }
}

fn bound_of<'a>(raw: &sys::cqlp_event, content: &'a [u8]) -> Bound<'a> {
    match raw.mark {
        sys::CQLP_MARK_NULL => Bound::Null,
        sys::CQLP_MARK_UNSET => Bound::Unset,
        _ => Bound::Bytes(content),
    }
}

fn place_of(raw: &sys::cqlp_event) -> Place {
    Place {
        row: raw.row,
        column: raw.column,
        level: raw.level,
    }
}

fn address_of(raw: &sys::cqlp_event) -> IpAddr {
    match raw.octets {
        4 => Ipv4Addr::new(raw.bytes[0], raw.bytes[1], raw.bytes[2], raw.bytes[3]).into(),
        _ => Ipv6Addr::from(raw.bytes).into(),
    }
}

/// The first bytes of a binary number.
fn front<const N: usize>(raw: &sys::cqlp_event) -> [u8; N] {
    std::array::from_fn(|at| raw.bytes[at])
}

/// A scalar.
///
/// # Safety
///
/// As of [`what_of`].
unsafe fn scalar_of<'a>(raw: &sys::cqlp_event, content: &'a [u8]) -> Scalar<'a> {
    match raw.kind {
        sys::CQLP_KIND_CUSTOM => Scalar::Custom(content),
        sys::CQLP_KIND_ASCII => Scalar::Ascii(text_of(content)),
        sys::CQLP_KIND_BIGINT => Scalar::Bigint(raw.number),
        sys::CQLP_KIND_BLOB => Scalar::Blob(content),
        sys::CQLP_KIND_BOOLEAN => Scalar::Boolean(raw.number != 0),
        sys::CQLP_KIND_COUNTER => Scalar::Counter(raw.number),
        sys::CQLP_KIND_DECIMAL => Scalar::Decimal {
            scale: raw.extra,
            unscaled: content,
        },
        sys::CQLP_KIND_DOUBLE => Scalar::Double(f64::from_be_bytes(front(raw))),
        sys::CQLP_KIND_FLOAT => Scalar::Float(f32::from_be_bytes(front(raw))),
        sys::CQLP_KIND_INT => Scalar::Int(raw.number as i32),
        sys::CQLP_KIND_TIMESTAMP => Scalar::Timestamp(raw.number),
        sys::CQLP_KIND_UUID => Scalar::Uuid(raw.bytes),
        sys::CQLP_KIND_VARCHAR => Scalar::Varchar(text_of(content)),
        sys::CQLP_KIND_VARINT => Scalar::Varint(content),
        sys::CQLP_KIND_TIMEUUID => Scalar::Timeuuid(raw.bytes),
        sys::CQLP_KIND_INET => Scalar::Inet(address_of(raw)),
        sys::CQLP_KIND_DATE => Scalar::Date(raw.number as u32),
        sys::CQLP_KIND_TIME => Scalar::Time(raw.number),
        sys::CQLP_KIND_SMALLINT => Scalar::Smallint(raw.number as i16),
        sys::CQLP_KIND_TINYINT => Scalar::Tinyint(raw.number as i8),
        sys::CQLP_KIND_RAW => Scalar::Raw(content),
        other => Scalar::Other(Kind::of(other), content),
    }
}
