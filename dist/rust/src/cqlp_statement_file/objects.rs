// Written by dist/erase from crates/cqlp_statement_file/src/objects.rt.
//! The objects of a file.

use crate::kit_host::prelude::{KitVec};
use crate::json::{Error, Scratch, Value};
use crate::kit_std::alloc::{AllocError};

/// Takes the objects of a file, a line each.
pub trait TakesObjects: Sized {
    /// Takes an object. Answers whether it is one of those that a file has.
    fn take(&mut self, object: &Value<'_>) -> Result<bool, AllocError>;
}

/// Takes the object of a line. Answers whether it has one, of those that a file has.
pub(crate) fn take_line<T: TakesObjects>(
    line: &[u8],
    scratch: &mut Scratch,
    objects: &mut T,
) -> Result<bool, AllocError> {
    match Value::from_slice(line, scratch) {
        Ok(object) => objects.take(&object),
        Err(Error::OutOfMemory) => Err(AllocError),
        Err(_) => Ok(false),
    }
}
