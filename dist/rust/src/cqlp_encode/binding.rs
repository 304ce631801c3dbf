// Written by dist/erase from crates/cqlp_encode/src/binding.rt.
//! Values as they are bound to statements, and as they are in pages whose columns are not described.

use crate::kit_std::prelude::{KitVec, Vec};
use crate::cqlp_encode::value_writing::offer_content;
use crate::cqlp_message::OwnedBound;
use crate::cqlp_note::{Header, IoFault, Target};
use crate::cqlp_type::TypeTree;
use crate::cqlp_value::{Atom, Value, fitting_size};
use crate::kit_std::alloc::{AllocError};

error! {
/// Why nothing was made of a value.
#[derive(Clone, Copy, Debug, PartialEq, Eq)]
pub enum BindError {
    /// The value is none of the type.
    #[error("the value is none of its type")]
    Unfit,
    /// The value would have more than 268,435,456 bytes with its length, which no body of a frame has.
    #[error("the value is longer than a frame can be")]
    TooLong,
    /// Memory was refused.
    #[error("no memory")]
    NoMemory,
}
}

impl From<AllocError> for BindError {
    fn from(_: AllocError) -> Self {
        BindError::NoMemory
    }
}

/// The \[value\] that binds a value of this type, or one without a type, to a statement of a QUERY, an EXECUTE or a BATCH. Its bytes are
/// those that [`write_value`](crate::cqlp_encode::write_value) writes, without the four of the length. A null is [`OwnedBound::Null`]; no value
/// is [`OwnedBound::Unset`], which is there without a call. Sections 3, 4.1.4 and 6 of `native_protocol_v4.spec`.
///
/// It asks for memory once, for just as many bytes as the content has, and not at all where it has none.
///
/// # Errors
///
/// In this order: [`BindError::Unfit`] where [`fits`](crate::cqlp_value::fits) says that the value is none of the type, and [`BindError::TooLong`], before memory is
/// asked for; [`BindError::NoMemory`] where it was refused.
pub fn bind_value(
    value: &Value,
    of: Option<&TypeTree>,
) -> Result<OwnedBound, BindError> {
    let content = content(value, of)?;
    Ok(match value {
        Value::Null => OwnedBound::Null,
        _ => OwnedBound::Bytes(content),
    })
}

/// A value of this type, or one without a type, as a cell of a page whose columns are not described: its content as a raw scalar, or null, or
/// empty. The bytes of the cell are those that [`write_value`](crate::cqlp_encode::write_value) writes. Sections 4.2.5.2 and 6 of
/// `native_protocol_v4.spec`.
///
/// [`PageWriter::cell_as`](crate::cqlp_encode::PageWriter::cell_as) writes such a cell without making it.
///
/// It asks for memory once, for just as many bytes as the content has, and not at all where it has none.
///
/// # Errors
///
/// Those of [`bind_value`].
pub fn raw_value(value: &Value, of: Option<&TypeTree>) -> Result<Value, BindError> {
    let content = content(value, of)?;
    Ok(match value {
        Value::Null => Value::Null,
        Value::Empty => Value::Empty,
        _ => Value::Leaf(Atom::Raw(content)),
    })
}

/// What follows the length of a value of this type.
fn content(value: &Value, of: Option<&TypeTree>) -> Result<Vec<u8>, BindError> {
    let size = match fitting_size(value, of) {
        Some(size) => size,
        None => return Err(BindError::Unfit),
    };
    if size > u64::from(Header::LONGEST_BODY) {
        return Err(BindError::TooLong);
    }
    let len = size as u32 - 4;
    let mut target = Gathered::new(len as usize)?;
    if offer_content(value, &mut target) < len {
        return Err(BindError::NoMemory);
    }
    Ok(target.into_bytes())
}

/// Bytes that are gathered in memory.
struct Gathered {
    bytes: Vec<u8>,
    /// How many calls found no memory, up to 2^64 - 1.
    failures: u64,
    /// How many calls took all of their bytes, up to 2^64 - 1.
    writes: u64,
}

impl Gathered {
    /// With room for this many bytes, which are asked for at once.
    fn new(len: usize) -> Result<Gathered, AllocError> {
        Ok(Gathered {
            bytes: Vec::kit_with_capacity(len)?,
            failures: 0,
            writes: 0,
        })
    }

    /// The bytes.
    fn into_bytes(self) -> Vec<u8> {
        let Gathered {
            bytes,
            failures: _,
            writes: _,
        } = self;
        bytes
    }
}

impl Target for Gathered {
    fn write(&mut self, bytes: &[u8]) -> Result<usize, IoFault> {
        match self.bytes.kit_extend_from_slice(bytes) {
            Ok(()) => {
                self.writes = self.writes.saturating_add(1);
                Ok(bytes.len())
            }
            Err(_) => {
                self.failures = self.failures.saturating_add(1);
                Err(IoFault)
            }
        }
    }
}
