//! Frames, written of their events.

use crate::event::{Bound, Event, Frame, Place, Scalar, What};
use crate::names::{Code, Field};
use cqlp_sys as sys;
use std::error::Error;
use std::fmt;
use std::net::IpAddr;

/// How many bytes an event has in its frame beside its content, at most.
const MOST: usize = 24;

/// The events are not written, and nothing was.
#[derive(Clone, Copy, Debug, PartialEq, Eq)]
pub struct EncodeError {
    /// Which event it is, from 0; none where it is no one, but all together. With [`Code::NoSuchFrame`] it is the first that does not fit those before it, and
    /// none where all fit and others are due after them.
    pub index: Option<usize>,
    /// Why.
    pub code: Code,
}

impl fmt::Display for EncodeError {
    fn fmt(&self, f: &mut fmt::Formatter<'_>) -> fmt::Result {
        match self.index {
            Some(index) => write!(f, "event {index}: {}", self.code),
            None => write!(f, "the events together: {}", self.code),
        }
    }
}

impl Error for EncodeError {}

/// The bytes of the frame that has these events, those that a decoder gives of it, in their order: that of its header, then its fields, and
/// that of its end, which may be left out.
///
/// Offsets are not looked at, nor the length of the body, which is counted, nor the number of the end: bytes after the last field are left out.
///
/// ```
/// use cqlp::{encode, Event, Field, Frame, Opcode, What};
///
/// let header = Frame { response: false, flags: 0, stream: 7, opcode: Opcode::Query, length: 0 };
/// let query = [
///     What::Frame(header),
///     What::Text(Field::Query, "now"),
///     What::Short(Field::Consistency, 1),
///     What::Byte(Field::QueryFlags, 0),
/// ];
/// let events = query.map(|what| Event { at: 0, what });
/// assert_eq!(encode(&events)?, b"\x04\0\0\x07\x07\0\0\0\x0a\0\0\0\x03now\0\x01\0");
///
/// let error = encode(&events[..3]).unwrap_err();
/// assert_eq!(error.to_string(), "the events together: NoSuchFrame");
/// # Ok::<(), cqlp::EncodeError>(())
/// ```
pub fn encode(events: &[Event<'_>]) -> Result<Vec<u8>, EncodeError> {
    let mut composer = Composer::new();
    for event in events {
        composer.take(event);
    }
    composer.write()
}

/// Gathers the events of a frame one by one, and writes its bytes. It copies contents, so events may be those of several calls of a decoder:
/// for each event it holds 72 bytes and its content.
///
/// ```
/// use cqlp::{Composer, Decoder, Limits, What};
///
/// // two requests, OPTIONS, of which the first has a byte after its last field
/// let bytes = [0x04, 0, 0, 1, 0x05, 0, 0, 0, 1, 0xFF, 0x04, 0, 0, 2, 0x05, 0, 0, 0, 0];
/// let (mut composer, mut written) = (Composer::new(), Vec::new());
/// let mut decoder = Decoder::new(Limits::default())?;
/// let mut events = decoder.decode(&bytes);
/// while let Some(event) = events.next_event()? {
///     composer.take(&event);
///     if let What::End(_) = event.what {
///         written.extend(composer.write()?);
///     }
/// }
/// assert_eq!(written, [0x04, 0, 0, 1, 0x05, 0, 0, 0, 0, 0x04, 0, 0, 2, 0x05, 0, 0, 0, 0]);
/// # Ok::<(), Box<dyn std::error::Error>>(())
/// ```
#[derive(Clone, Default)]
pub struct Composer {
    /// None has a pointer.
    pub(crate) events: Vec<sys::cqlp_event>,
    /// The contents of all, one after the other.
    pub(crate) contents: Vec<u8>,
}

// SAFETY: the pointer of each event in it is null.
unsafe impl Send for Composer {}
// SAFETY: as above.
unsafe impl Sync for Composer {}

impl Composer {
    /// One that no event came to.
    pub fn new() -> Composer {
        Composer::default()
    }

    /// Takes the next event. Whether it may come here is said when the frame is written.
    pub fn take(&mut self, event: &Event<'_>) {
        let content = content_of(&event.what);
        self.contents.extend_from_slice(content);
        self.events.push(sys::cqlp_event {
            length: content.len(),
            ..raw_of(&event.what)
        });
    }

    /// The bytes of the frame that has the events that were taken, as of [`encode`]. In either case they are let go: the event that is taken
    /// next is the first of another frame.
    pub fn write(&mut self) -> Result<Vec<u8>, EncodeError> {
        let written = self.write_in(self.contents.len() + MOST * self.events.len());
        self.events.clear();
        self.contents.clear();
        written
    }

    /// Writes in this much room, or in as much as is wanted where that is more.
    fn write_in(&self, room: usize) -> Result<Vec<u8>, EncodeError> {
        let mut frame = Vec::with_capacity(room);
        let mut encoded = sys::cqlp_encoded::default();
        loop {
            // SAFETY: each points to as much as its type and the number after it say, none is null, and none overlap.
            let code = unsafe {
                sys::cqlp_encode(
                    self.events.as_ptr(),
                    self.events.len(),
                    self.contents.as_ptr(),
                    self.contents.len(),
                    frame.as_mut_ptr(),
                    frame.capacity(),
                    &mut encoded,
                )
            };
            match code {
                sys::CQLP_DONE => break,
                sys::CQLP_NO_ROOM => frame.reserve_exact(encoded.length),
                _ => return Err(self.failed(code, encoded.event)),
            }
        }
        // SAFETY: the library wrote this many bytes, and there was room for them.
        unsafe { frame.set_len(encoded.length) };
        Ok(frame)
    }

    /// Lets go of this many events, the first ones, and of this many bytes, which their contents have.
    pub(crate) fn let_go(&mut self, events: usize, contents: usize) {
        self.events.drain(..events);
        self.contents.drain(..contents);
    }

    pub(crate) fn failed(&self, code: u32, event: usize) -> EncodeError {
        EncodeError {
            index: (event < self.events.len()).then_some(event),
            code: Code::of(code),
        }
    }
}

impl fmt::Debug for Composer {
    fn fmt(&self, f: &mut fmt::Formatter<'_>) -> fmt::Result {
        f.debug_struct("Composer").finish_non_exhaustive()
    }
}

/// The content, where it is one of those that the library takes.
fn content_of<'a>(what: &What<'a>) -> &'a [u8] {
    match *what {
        What::Text(_, text) => text.as_bytes(),
        What::Bytes(_, Some(bytes)) | What::Bound(_, Bound::Bytes(bytes)) => bytes,
        What::Leaf(_, Scalar::Ascii(text) | Scalar::Varchar(text)) => text.as_bytes(),
        What::Leaf(_, Scalar::Custom(bytes) | Scalar::Blob(bytes) | Scalar::Varint(bytes) | Scalar::Raw(bytes)) => {
            bytes
        }
        What::Leaf(_, Scalar::Decimal { unscaled, .. }) => unscaled,
        _ => &[],
    }
}

/// The event as C has it, without its content.
fn raw_of(what: &What<'_>) -> sys::cqlp_event {
    match *what {
        What::Frame(frame) => raw_frame(frame),
        What::Byte(field, number) => numbered(sys::CQLP_TAG_BYTE, field, number.into()),
        What::Short(field, number) => numbered(sys::CQLP_TAG_SHORT, field, number.into()),
        What::Int(field, number) => numbered(sys::CQLP_TAG_INT, field, number.into()),
        What::Long(field, number) => numbered(sys::CQLP_TAG_LONG, field, number),
        What::Count(field, number) => numbered(sys::CQLP_TAG_COUNT, field, number.into()),
        What::Uuid(field, uuid) => with_octets(numbered(sys::CQLP_TAG_UUID, field, 0), &uuid),
        What::Text(field, _) => numbered(sys::CQLP_TAG_TEXT, field, 0),
        What::Bytes(field, bytes) => sys::cqlp_event {
            mark: bytes.map_or(sys::CQLP_MARK_NULL, |_| sys::CQLP_MARK_NONE),
            ..numbered(sys::CQLP_TAG_BYTES, field, 0)
        },
        What::Bound(field, bound) => sys::cqlp_event {
            mark: mark_of(bound),
            ..numbered(sys::CQLP_TAG_BOUND, field, 0)
        },
        What::Inet(field, address, port) => sys::cqlp_event {
            extra: port,
            ..with_address(numbered(sys::CQLP_TAG_INET, field, 0), address)
        },
        What::End(extra) => sys::cqlp_event {
            number: extra.into(),
            ..tagged(sys::CQLP_TAG_END)
        },
        _ => raw_cell(what),
    }
}

/// A type option, or an event of a cell, as C has it. What has no name here is of no tag, so that the library refuses it.
fn raw_cell(what: &What<'_>) -> sys::cqlp_event {
    match *what {
        What::TypeNode(kind) => sys::cqlp_event {
            kind: kind.number(),
            ..tagged(sys::CQLP_TAG_TYPE_NODE)
        },
        What::Leaf(place, scalar) => with_scalar(placed(sys::CQLP_TAG_LEAF, place), scalar),
        What::Null(place) => placed(sys::CQLP_TAG_NULL, place),
        What::Empty(place) => placed(sys::CQLP_TAG_EMPTY, place),
        What::Enter { place, kind, items } => sys::cqlp_event {
            kind: kind.number(),
            number: items.into(),
            ..placed(sys::CQLP_TAG_ENTER, place)
        },
        What::Leave { level, items } => sys::cqlp_event {
            level,
            number: items.into(),
            ..tagged(sys::CQLP_TAG_LEAVE)
        },
        What::Part {
            place, offset, last, ..
        } => sys::cqlp_event {
            number: offset.into(),
            mark: if last { sys::CQLP_MARK_LAST } else { sys::CQLP_MARK_NONE },
            ..placed(sys::CQLP_TAG_PART, place)
        },
        _ => sys::cqlp_event::BLANK,
    }
}

fn tagged(tag: u8) -> sys::cqlp_event {
    sys::cqlp_event {
        tag,
        ..sys::cqlp_event::BLANK
    }
}

fn numbered(tag: u8, field: Field, number: i64) -> sys::cqlp_event {
    sys::cqlp_event {
        field: field.number(),
        number,
        ..tagged(tag)
    }
}

fn placed(tag: u8, place: Place) -> sys::cqlp_event {
    sys::cqlp_event {
        row: place.row,
        column: place.column,
        level: place.level,
        ..tagged(tag)
    }
}

fn raw_frame(frame: Frame) -> sys::cqlp_event {
    let response = if frame.response {
        sys::CQLP_MARK_RESPONSE
    } else {
        sys::CQLP_MARK_NONE
    };
    sys::cqlp_event {
        mark: response,
        flags: frame.flags,
        extra: frame.stream.into(),
        opcode: frame.opcode.number(),
        number: frame.length.into(),
        ..tagged(sys::CQLP_TAG_FRAME)
    }
}

fn mark_of(bound: Bound<'_>) -> u8 {
    match bound {
        Bound::Null => sys::CQLP_MARK_NULL,
        Bound::Unset => sys::CQLP_MARK_UNSET,
        Bound::Bytes(_) => sys::CQLP_MARK_NONE,
    }
}

/// An event with these bytes of a uuid, an address or a binary number.
fn with_octets(raw: sys::cqlp_event, octets: &[u8]) -> sys::cqlp_event {
    let mut bytes = [0; 16];
    bytes[..octets.len()].copy_from_slice(octets);
    sys::cqlp_event {
        bytes,
        octets: octets.len() as u8,
        ..raw
    }
}

fn with_address(raw: sys::cqlp_event, address: IpAddr) -> sys::cqlp_event {
    match address {
        IpAddr::V4(address) => with_octets(raw, &address.octets()),
        IpAddr::V6(address) => with_octets(raw, &address.octets()),
    }
}

/// A leaf with what its kind has beside a content.
fn with_scalar(raw: sys::cqlp_event, scalar: Scalar<'_>) -> sys::cqlp_event {
    let of = |kind| sys::cqlp_event { kind, ..raw };
    let number = |kind, number| sys::cqlp_event { number, ..of(kind) };
    match scalar {
        Scalar::Custom(_) => of(sys::CQLP_KIND_CUSTOM),
        Scalar::Ascii(_) => of(sys::CQLP_KIND_ASCII),
        Scalar::Bigint(value) => number(sys::CQLP_KIND_BIGINT, value),
        Scalar::Blob(_) => of(sys::CQLP_KIND_BLOB),
        Scalar::Boolean(value) => number(sys::CQLP_KIND_BOOLEAN, value.into()),
        Scalar::Counter(value) => number(sys::CQLP_KIND_COUNTER, value),
        Scalar::Decimal { scale, .. } => sys::cqlp_event {
            extra: scale,
            ..of(sys::CQLP_KIND_DECIMAL)
        },
        Scalar::Double(value) => with_octets(of(sys::CQLP_KIND_DOUBLE), &value.to_be_bytes()),
        Scalar::Float(value) => with_octets(of(sys::CQLP_KIND_FLOAT), &value.to_be_bytes()),
        Scalar::Int(value) => number(sys::CQLP_KIND_INT, value.into()),
        Scalar::Timestamp(value) => number(sys::CQLP_KIND_TIMESTAMP, value),
        Scalar::Uuid(uuid) => with_octets(of(sys::CQLP_KIND_UUID), &uuid),
        Scalar::Varchar(_) => of(sys::CQLP_KIND_VARCHAR),
        Scalar::Varint(_) => of(sys::CQLP_KIND_VARINT),
        Scalar::Timeuuid(uuid) => with_octets(of(sys::CQLP_KIND_TIMEUUID), &uuid),
        Scalar::Inet(address) => with_address(of(sys::CQLP_KIND_INET), address),
        Scalar::Date(value) => number(sys::CQLP_KIND_DATE, value.into()),
        Scalar::Time(value) => number(sys::CQLP_KIND_TIME, value),
        Scalar::Smallint(value) => number(sys::CQLP_KIND_SMALLINT, value.into()),
        Scalar::Tinyint(value) => number(sys::CQLP_KIND_TINYINT, value.into()),
        Scalar::Raw(_) => of(sys::CQLP_KIND_RAW),
        Scalar::Other(..) => sys::cqlp_event::BLANK,
    }
}

#[cfg(test)]
mod tests {
    use super::*;
    use crate::names::{Kind, Opcode};
    use std::net::{Ipv4Addr, Ipv6Addr};

    const HEADER: Frame = Frame {
        response: false,
        flags: 0,
        stream: 7,
        opcode: Opcode::Query,
        length: 0,
    };

    #[test]
    fn room_that_is_too_little() {
        let mut composer = Composer::new();
        for what in [
            What::Frame(HEADER),
            What::Text(Field::Query, "ä!"),
            What::Short(Field::Consistency, 1),
            What::Byte(Field::QueryFlags, 0),
        ] {
            composer.take(&Event { at: 0, what });
        }
        let wanted = "\u{4}\0\0\u{7}\u{7}\0\0\0\u{a}\0\0\0\u{3}ä!\0\u{1}\0".as_bytes();
        for room in 0..=wanted.len() + 1 {
            assert_eq!(composer.write_in(room).as_deref(), Ok(wanted), "{room}");
        }
    }

    const PLACE: Place = Place {
        row: 1,
        column: 2,
        level: 3,
    };

    fn fields() -> Vec<What<'static>> {
        let response = Frame {
            response: true,
            flags: 0x0A,
            stream: -1,
            opcode: Opcode::Event,
            length: 1 << 28,
        };
        vec![
            What::Frame(HEADER),
            What::Frame(response),
            What::Byte(Field::BatchType, 255),
            What::Short(Field::Consistency, 65_535),
            What::Int(Field::ErrorCode, -1),
            What::Long(Field::Timestamp, i64::MIN),
            What::Count(Field::Rows, 1 << 31),
            What::Uuid(Field::TraceId, *b"0123456789abcdef"),
            What::Text(Field::Query, "ä!"),
            What::Bytes(Field::Token, None),
            What::Bytes(Field::Token, Some(b"")),
            What::Bytes(Field::Token, Some(b"\xFF")),
            What::Bound(Field::Value, Bound::Null),
            What::Bound(Field::Value, Bound::Unset),
            What::Bound(Field::Value, Bound::Bytes(b"\xFF")),
            What::Inet(Field::Address, Ipv4Addr::new(127, 0, 0, 1).into(), 9042),
            What::Inet(Field::Address, Ipv6Addr::LOCALHOST.into(), -1),
            What::TypeNode(Kind::Tuple),
            What::Null(PLACE),
            What::Empty(PLACE),
            What::Enter {
                place: PLACE,
                kind: Kind::Map,
                items: u32::MAX,
            },
            What::Leave { level: 3, items: 5 },
            What::End(6),
        ]
    }

    fn scalars() -> [Scalar<'static>; 21] {
        [
            Scalar::Custom(b"\xFF"),
            Scalar::Ascii("a"),
            Scalar::Bigint(i64::MIN),
            Scalar::Blob(b"\xFE"),
            Scalar::Boolean(true),
            Scalar::Counter(-2),
            Scalar::Decimal {
                scale: -3,
                unscaled: b"\x01",
            },
            Scalar::Double(-0.1),
            Scalar::Float(0.1),
            Scalar::Int(i32::MIN),
            Scalar::Timestamp(-4),
            Scalar::Uuid(*b"0123456789abcdef"),
            Scalar::Varchar("ä"),
            Scalar::Varint(b"\x80"),
            Scalar::Timeuuid(*b"fedcba9876543210"),
            Scalar::Inet(Ipv4Addr::new(127, 0, 0, 1).into()),
            Scalar::Date(u32::MAX),
            Scalar::Time(5),
            Scalar::Smallint(i16::MIN),
            Scalar::Tinyint(i8::MIN),
            Scalar::Raw(b"\xFD"),
        ]
    }

    /// What C has of an event is that event, and one that the library knows.
    #[test]
    fn read_back() {
        let leaves = scalars().map(|scalar| What::Leaf(PLACE, scalar));
        for what in fields().into_iter().chain(leaves) {
            let content = content_of(&what);
            let raw = sys::cqlp_event {
                content: content.as_ptr(),
                length: content.len(),
                ..raw_of(&what)
            };
            // SAFETY: its content stays, is UTF-8 where it is a text, and its number is one of its notation.
            let event = unsafe { Event::of(&raw) };
            assert_eq!(event, Event { at: 0, what });
            let known = crate::encode(&[
                Event {
                    at: 0,
                    what: What::Frame(HEADER),
                },
                event,
            ]);
            assert_ne!(known.unwrap_err().code, Code::NoEvent, "{what:?}");
        }
    }

    /// What has no name here is no event, and a part is not written.
    #[test]
    fn not_read_back() {
        let part = |last| What::Part {
            place: PLACE,
            offset: 4,
            bytes: b"\xFF",
            last,
        };
        for (what, code) in [
            (What::Leaf(PLACE, Scalar::Other(Kind::Int, b"1")), Code::NoEvent),
            (What::Other(19), Code::NoEvent),
            (part(false), Code::Unbuilt),
            (part(true), Code::Unbuilt),
        ] {
            let error = crate::encode(&[
                Event {
                    at: 0,
                    what: What::Frame(HEADER),
                },
                Event { at: 0, what },
            ])
            .unwrap_err();
            assert_eq!(error, EncodeError { index: Some(1), code });
        }
    }
}
