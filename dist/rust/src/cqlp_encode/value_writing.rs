// Written by dist/erase from crates/cqlp_encode/src/value_writing.rt.
//! A value, written.

use crate::cqlp_encode::staged::{Staged, offer_after};
use crate::cqlp_encode::values::{put_atom, put_inside, put_measured};
use crate::cqlp_note::{Header, Target};
use crate::cqlp_type::TypeTree;
use crate::cqlp_value::{Atom, Content, Value, fitting_size};

error! {
/// Why a value was not written, or not whole.
#[derive(Clone, Copy, Debug, PartialEq, Eq)]
pub enum ValueError {
    /// The value is none of the type, and nothing was written.
    #[error("the value is none of its type")]
    Unfit,
    /// The value would have more than 268,435,456 bytes, which no body of a frame has, and nothing was written.
    #[error("the value is longer than a frame can be")]
    TooLong,
    /// The target failed, or took nothing, after the value's first bytes, this many.
    #[error("the target failed after {written} bytes of the value")]
    Write {
        /// How many bytes of the value are written, from its length on.
        written: u32,
    },
}
}

/// Writes a value of this type, or of a cell without a type, as a \[bytes\] with its length, and answers how many bytes it has,
/// the four of the length counted. Sections 3 and 6 of `native_protocol_v4.spec`. Each null has the length -1, and each true is 01.
///
/// It takes no memory. A number goes to the target with its length, by one call, and any other scalar but a decimal by two, of which the first is
/// for its length: in front of a target whose calls cost much, as a socket, have a buffer. The parts of a collection, a tuple or a
/// user-defined value go together, at most 512 bytes at a time, and a longer content by a call of its own.
///
/// # Errors
///
/// In this order: [`ValueError::Unfit`] where [`fits`](crate::cqlp_value::fits) says that the value is none of the type, and [`ValueError::TooLong`],
/// before anything is written; [`ValueError::Write`] at the first call of the target that fails or takes nothing.
pub fn write_value<W: Target>(
    value: &Value,
    of: Option<&TypeTree>,
    target: &mut W,
) -> Result<u32, ValueError> {
    let size = match fitting_size(value, of) {
        Some(size) => size,
        None => return Err(ValueError::Unfit),
    };
    if size > u64::from(Header::LONGEST_BODY) {
        return Err(ValueError::TooLong);
    }
    let len = size as u32;
    let taken = offer_value(value, len, 0, target);
    if taken < len {
        Err(ValueError::Write { written: taken })
    } else {
        Ok(len)
    }
}

/// Writes a value with its length, of `size` bytes in all, but for its first bytes, `before` many, and answers how many of its bytes
/// the target took or had from before.
#[inline(always)]
pub(crate) fn offer_value<W: Target>(value: &Value, size: u32, before: u32, target: &mut W) -> u32 {
    match value {
        Value::Leaf(atom) => {
            if before == 0 {
                offer_atom(atom, target)
            } else {
                offer_any(value, size, before, target)
            }
        }
        _ => offer_any(value, size, before, target),
    }
}

/// The same of a scalar.
#[inline(always)]
fn offer_atom<W: Target>(atom: &Atom, target: &mut W) -> u32 {
    match atom.content() {
        Content::One(number) => offer_number(&[number], target),
        Content::Two(number) => offer_number(&number.to_be_bytes(), target),
        Content::Four(number) => offer_number(&number.to_be_bytes(), target),
        Content::Eight(number) => offer_number(&number.to_be_bytes(), target),
        Content::Lent(bytes) => offer_lent(bytes, target),
        Content::Decimal(_, _) => offer_decimal(atom, target),
    }
}

/// The same of the bytes of a number, which are at most eight.
#[inline(always)]
pub(crate) fn offer_number<W: Target>(content: &[u8], target: &mut W) -> u32 {
    let mut bytes = [0; 12];
    let end = content.len() + 4;
    bytes[..4].copy_from_slice(&content.len().to_be_bytes()[4..]);
    bytes[4..end].copy_from_slice(content);
    offer_after(target, 0, &bytes[..end]) as u32
}

/// The same of a content that is lent, which is not copied on its way: its length is offered first, by a call of its own.
#[inline(always)]
pub(crate) fn offer_lent<W: Target>(content: &[u8], target: &mut W) -> u32 {
    let len = (content.len() as u32).to_be_bytes();
    let taken = offer_after(target, 0, &len);
    if taken < 4 {
        return taken as u32;
    }
    (4 + offer_after(target, 0, content)) as u32
}

/// The same of a decimal.
#[inline(never)]
pub(crate) fn offer_decimal<W: Target>(atom: &Atom, target: &mut W) -> u32 {
    let mut out = Staged::new(target, 0);
    put_atom(&mut out, atom);
    out.flush();
    let taken = out.taken();
    let _ = out.into_inner();
    taken as u32
}

/// The same of any value, of which the target may have the first bytes.
#[inline(never)]
fn offer_any<W: Target>(value: &Value, size: u32, before: u32, target: &mut W) -> u32 {
    let mut out = Staged::new(target, u64::from(before));
    put_measured(&mut out, value, u64::from(size) - 4);
    out.flush();
    let taken = out.taken();
    let _ = out.into_inner();
    taken as u32
}

/// Writes what follows a value's length, and answers how many bytes of it the target took.
pub(crate) fn offer_content<W: Target>(value: &Value, target: &mut W) -> u32 {
    let mut out = Staged::new(target, 0);
    put_inside(&mut out, value);
    out.flush();
    let taken = out.taken();
    let _ = out.into_inner();
    taken as u32
}
