// Written by dist/erase from crates/cqlp_build_cells/src/step.rt.
//! Events of cells that are held.

use crate::kit_std::prelude::{KitString, KitVec, String, Vec};
use crate::cqlp_grammar::Event;
use crate::cqlp_kind::{Kind, Scalar};
use crate::cqlp_value::Atom;
use crate::kit_std::alloc::{AllocError};

/// An event of a value at its level, with bytes of its own.
pub enum Step {
    Leaf(Atom),
    Null,
    Empty,
    /// A value with items begins: how many, or of how many types.
    Enter(Kind, u32),
    /// Such a value ends, after this many items.
    Leave(u32),
}

/// The same, with bytes of its own, at its level.
pub(crate) fn own(event: &Event<'_>) -> Result<(u32, Step), AllocError> {
    Ok(match event {
        Event::Leaf { level, scalar, .. } => (*level, Step::Leaf(own_scalar(scalar)?)),
        Event::Null { level, .. } => (*level, Step::Null),
        Event::Empty { level, .. } => (*level, Step::Empty),
        Event::Enter {
            level,
            kind,
            items,
            ..
        } => (*level, Step::Enter(*kind, *items)),
        Event::Leave { level, items } => (*level, Step::Leave(*items)),
        _ => unreachable!(),
    })
}

/// The same scalar, with bytes of its own.
#[inline(always)]
pub fn own_scalar(scalar: &Scalar<'_>) -> Result<Atom, AllocError> {
    let atom = match *scalar {
        Scalar::Custom(bytes) => Atom::Custom(Vec::from_slice(bytes)?),
        Scalar::Ascii(text) => Atom::Ascii(String::from_str(text)?),
        Scalar::Bigint(number) => Atom::Bigint(number),
        Scalar::Blob(bytes) => Atom::Blob(Vec::from_slice(bytes)?),
        Scalar::Boolean(value) => Atom::Boolean(value),
        Scalar::Counter(number) => Atom::Counter(number),
        Scalar::Decimal { scale, unscaled } => Atom::Decimal {
            scale,
            unscaled: Vec::from_slice(unscaled)?,
        },
        Scalar::Double(bytes) => Atom::Double(bytes),
        Scalar::Float(bytes) => Atom::Float(bytes),
        Scalar::Int(number) => Atom::Int(number),
        Scalar::Timestamp(number) => Atom::Timestamp(number),
        Scalar::Uuid(bytes) => Atom::Uuid(bytes),
        Scalar::Varchar(text) => Atom::Varchar(String::from_str(text)?),
        Scalar::Varint(bytes) => Atom::Varint(Vec::from_slice(bytes)?),
        Scalar::Timeuuid(bytes) => Atom::Timeuuid(bytes),
        Scalar::Inet(address) => Atom::Inet(address),
        Scalar::Date(days) => Atom::Date(days),
        Scalar::Time(number) => Atom::Time(number),
        Scalar::Smallint(number) => Atom::Smallint(number),
        Scalar::Tinyint(number) => Atom::Tinyint(number),
        Scalar::Raw(bytes) => Atom::Raw(Vec::from_slice(bytes)?),
    };
    Ok(atom)
}

/// How many bytes a scalar has that has no length of its own.
pub fn scalar_size(scalar: &Scalar<'_>) -> usize {
    match scalar {
        Scalar::Custom(bytes) | Scalar::Blob(bytes) | Scalar::Varint(bytes) | Scalar::Raw(bytes) =>
            { bytes.len() }
        Scalar::Ascii(text) | Scalar::Varchar(text) => text.len(),
        Scalar::Decimal { unscaled, .. } => unscaled.len(),
        _ => 0,
    }
}

/// Whether nothing of its cell comes after the event at this level: a value at level 0, or the end of one; not the beginning of one
/// with items.
#[must_use]
pub fn ends(level: u32, step: &Step) -> bool {
    match step {
        Step::Enter(_, _) => false,
        _ => level == 0,
    }
}
