// Written by dist/erase from crates/cqlp_compose/src/head.rt.
//! What comes before the cells of a page.

use crate::kit_std::prelude::{Vec};
use crate::cqlp_compose::error::HeadError;
use crate::cqlp_compose::memory::VecTarget;
use crate::cqlp_encode::{PageError, PageWriter};
use crate::cqlp_message::Frame;

/// All of a page that comes before its first cell: the header, whose length counts the cells, which are to have `cells_len` bytes, and all
/// other parts.
///
/// # Errors
///
/// [`HeadError::Unfit`] where [`Frame::page_unfit`] says why the frame is no page that can be written with cells of as many bytes, and
/// [`HeadError::NoMemory`] where memory was refused.
pub fn page_head(frame: &Frame, cells_len: u32) -> Result<Vec<u8>, HeadError> {
    let mut target = VecTarget::new(Vec::new());
    let begun = match PageWriter::begin(frame, cells_len, &mut target) {
        Ok(_) => None,
        Err(PageError::Unfit(why)) => Some(HeadError::Unfit(why)),
        Err(_) => Some(HeadError::NoMemory),
    };
    match begun {
        None => Ok(target.into_bytes()),
        Some(why) => Err(why),
    }
}
