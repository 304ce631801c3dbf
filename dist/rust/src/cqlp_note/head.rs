// Written by dist/erase from crates/cqlp_note/src/head.rt.
//! What the front of a field determines of it.

use crate::cqlp_note::field::Notation;
use crate::cqlp_note::prim::{Address, BoundValue, Primitive};
use crate::cqlp_note::refusal::Reason;

/// A field as it was asked for: its notation, the limit on its content, the offset of its first byte, and the room
/// that its container has from there on.
#[derive(Clone, Copy)]
pub(crate) struct Wanted {
    pub notation: Notation,
    pub limit: u32,
    pub at: u64,
    pub room: u64,
}

/// What is made of a content: a text, bytes, or a value of a request.
#[derive(Clone, Copy)]
pub enum ContentForm {
    /// UTF-8.
    Text,
    /// Any bytes.
    Bytes,
    /// The bytes of a \[value\].
    Bound,
}

/// What the front of a field determines.
#[derive(Clone, Copy)]
pub(crate) enum Head {
    /// The whole field, of this many bytes.
    Whole {
        used: usize,
        prim: Primitive<'static>,
    },
    /// After this many bytes comes a content of this length.
    Content {
        after: usize,
        len: u32,
        form: ContentForm,
    },
}

/// Why the front of a field determines nothing.
#[derive(Clone, Copy)]
pub(crate) enum Stop {
    /// More bytes are wanted.
    Wanting,
    /// It is refused.
    Refused(Reason),
}

impl Notation {
    /// The bytes that each field in this notation has.
    #[inline(always)]
    pub(crate) fn fixed(self) -> usize {
        match self {
            Notation::Content(_) => 0,
            Notation::Byte | Notation::Inet => 1,
            Notation::Short | Notation::Count16 | Notation::Text16 | Notation::Bytes16 => 2,
            Notation::Int
            | Notation::Count32
            | Notation::Text32
            | Notation::Bytes32
            | Notation::Bound => 4,
            Notation::Long => 8,
            Notation::Uuid => 16,
        }
    }
}

/// Reads the front of a field in its first bytes, which may be too few or go on after it.
pub(crate) fn read_head(wanted: Wanted, bytes: &[u8]) -> Result<Head, Stop> {
    let fixed = wanted.notation.fixed();
    if wanted.room < fixed as u64 {
        Err(Stop::Refused(Reason::Overrun))
    } else if bytes.len() < fixed {
        Err(Stop::Wanting)
    } else {
        read_after_fixed(wanted, bytes)
    }
}

/// Reads on after the fixed part.
fn read_after_fixed(wanted: Wanted, bytes: &[u8]) -> Result<Head, Stop> {
    match wanted.notation {
        Notation::Byte => end_field(1, Primitive::Byte(u8::from_be_bytes(read_array(bytes)))),
        Notation::Short => end_field(2, Primitive::Short(u16::from_be_bytes(read_array(bytes)))),
        Notation::Int => end_field(4, Primitive::Int(i32::from_be_bytes(read_array(bytes)))),
        Notation::Long => end_field(8, Primitive::Long(i64::from_be_bytes(read_array(bytes)))),
        Notation::Uuid => end_field(16, Primitive::Uuid(read_array(bytes))),
        Notation::Count16 => end_field(2, Primitive::Count(read_short(bytes))),
        Notation::Count32 => read_count(bytes),
        Notation::Text16 => admit_content(wanted, 2, read_short(bytes), ContentForm::Text),
        Notation::Text32 => read_long_text(wanted, bytes),
        Notation::Bytes16 => admit_content(wanted, 2, read_short(bytes), ContentForm::Bytes),
        Notation::Bytes32 => read_bytes(wanted, bytes),
        Notation::Bound => read_value(wanted, bytes),
        Notation::Inet => read_inet(wanted, bytes),
        Notation::Content(len) => admit_content(wanted, 0, len, ContentForm::Bytes),
    }
}

/// Reads a count of four bytes.
fn read_count(bytes: &[u8]) -> Result<Head, Stop> {
    match read_natural(bytes) {
        Some(count) => end_field(4, Primitive::Count(count)),
        None => Err(Stop::Refused(Reason::BadCount)),
    }
}

/// Reads the length of a \[long string\].
fn read_long_text(wanted: Wanted, bytes: &[u8]) -> Result<Head, Stop> {
    match read_natural(bytes) {
        Some(len) => admit_content(wanted, 4, len, ContentForm::Text),
        None => Err(Stop::Refused(Reason::BadCount)),
    }
}

/// Reads the length of \[bytes\].
fn read_bytes(wanted: Wanted, bytes: &[u8]) -> Result<Head, Stop> {
    match read_natural(bytes) {
        Some(len) => admit_content(wanted, 4, len, ContentForm::Bytes),
        None => end_field(4, Primitive::Bytes(None)),
    }
}

/// Reads the length of a \[value\].
fn read_value(wanted: Wanted, bytes: &[u8]) -> Result<Head, Stop> {
    match read_natural(bytes) {
        Some(len) => admit_content(wanted, 4, len, ContentForm::Bound),
        None => match i32::from_be_bytes(read_array(bytes)) {
            -1 => end_field(4, Primitive::Bound(BoundValue::Null)),
            -2 => end_field(4, Primitive::Bound(BoundValue::Unset)),
            _ => Err(Stop::Refused(Reason::BadValueLength)),
        },
    }
}

/// Reads an \[inet\].
fn read_inet(wanted: Wanted, bytes: &[u8]) -> Result<Head, Stop> {
    match u8::from_be_bytes(read_array(bytes)) {
        4 => read_address_and_port(wanted, 4, &bytes[1..]),
        16 => read_address_and_port(wanted, 16, &bytes[1..]),
        _ => Err(Stop::Refused(Reason::BadInet)),
    }
}

/// Goes on to a content of this length after this many bytes, if the room and the limit admit it.
fn admit_content(wanted: Wanted, after: usize, len: u32, form: ContentForm) -> Result<Head, Stop> {
    if wanted.room < after as u64 + u64::from(len) {
        Err(Stop::Refused(Reason::Overrun))
    } else if wanted.limit < len {
        Err(Stop::Refused(Reason::TooLong))
    } else {
        Ok(Head::Content { after, len, form })
    }
}

/// Reads an address of this many bytes and a port, after the number of the address's bytes.
fn read_address_and_port(wanted: Wanted, size: usize, rest: &[u8]) -> Result<Head, Stop> {
    if wanted.room < size as u64 + 5 {
        return Err(Stop::Refused(Reason::Overrun));
    }
    if rest.len() < size + 4 {
        return Err(Stop::Wanting);
    }
    let port = i32::from_be_bytes(read_array(&rest[size..]));
    end_field(size + 5, Primitive::Inet(read_address(size, rest), port))
}

/// Reads an address in the first 4 or 16 bytes.
fn read_address(size: usize, bytes: &[u8]) -> Address {
    if size == 4 {
        Address::V4(read_array(bytes))
    } else {
        Address::V6(read_array(bytes))
    }
}

/// Reads the number in the first four bytes, where it is not negative.
#[inline(always)]
pub(crate) fn read_natural(bytes: &[u8]) -> Option<u32> {
    let number = u32::from_be_bytes(read_array(bytes));
    if number > i32::MAX as u32 {
        None
    } else {
        Some(number)
    }
}

/// Reads the number in the first two bytes.
#[inline(always)]
pub(crate) fn read_short(bytes: &[u8]) -> u32 {
    u16::from_be_bytes(read_array(bytes)).into()
}

/// Ends the field, which has this many bytes.
fn end_field(used: usize, prim: Primitive<'static>) -> Result<Head, Stop> {
    Ok(Head::Whole { used, prim })
}

/// Reads the first N bytes.
#[inline(always)]
pub(crate) fn read_array<const N: usize>(bytes: &[u8]) -> [u8; N] {
    *bytes.first_chunk().unwrap()
}
