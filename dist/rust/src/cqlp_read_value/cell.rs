// Written by dist/erase from crates/cqlp_read_value/src/cell.rt.
//! A cell at the front of the bytes that are left of a page.

use crate::cqlp_read_value::front::front_number;
use crate::cqlp_read_value::reading::is_too_long;
use crate::cqlp_kind::content::scalar;
use crate::cqlp_kind::{Kind, Scalar};
use crate::cqlp_note::{Limits, Reason};

/// A cell of a page, and how many bytes it takes with its length.
#[derive(Clone, Copy, Debug, PartialEq, Eq)]
pub struct PageCell<'a> {
    /// How many bytes the cell takes, the four of its length counted.
    pub used: usize,
    /// What is in it.
    pub content: CellContent<'a>,
}

/// What a cell of a page holds. Section 6 of `native_protocol_v4.spec`.
#[derive(Clone, Copy, Debug, PartialEq, Eq)]
pub enum CellContent<'a> {
    /// A negative length.
    Null,
    /// No bytes, of any type.
    Empty,
    /// A scalar with some bytes.
    Scalar(Scalar<'a>),
    /// The content of a list, a set, a map, a tuple or a user-defined value, which is some bytes. Nothing of it is checked yet.
    Items(&'a [u8]),
}

/// The cell of this kind at the front of these bytes, which are those left of its page's frame. Section 6 of
/// `native_protocol_v4.spec`.
///
/// Of the limits `cell` alone counts, the most bytes of one scalar; nothing comes in parts. It takes no memory: contents are lent from
/// the bytes.
///
/// # Errors
///
/// Why a decoder refuses the cell, which it does at the cell's first byte: `Overrun` where its length or its content passes the bytes;
/// `BadSize` where no scalar of the kind has as many bytes, `TooLong` where they are more than `cell`, `BadUtf8` and `BadScalar` where
/// they are no scalar of the kind.
#[inline(always)]
pub fn read_cell<'a>(limits: &Limits, kind: Kind, bytes: &'a [u8]) -> Result<PageCell<'a>, Reason> {
    if bytes.len() < 4 {
        return Err(Reason::Overrun);
    }
    let len = front_number(bytes);
    if len > i32::MAX as u32 {
        return Ok(PageCell {
            used: 4,
            content: CellContent::Null,
        });
    }
    if len == 0 {
        return Ok(PageCell {
            used: 4,
            content: CellContent::Empty,
        });
    }
    if bytes.len() - 4 < len as usize {
        return Err(Reason::Overrun);
    }
    let used = 4 + len as usize;
    let content = &bytes[4..used];
    if has_items(kind) {
        return Ok(PageCell {
            used,
            content: CellContent::Items(content),
        });
    }
    if is_too_long(limits, kind, len as usize) {
        return Err(Reason::TooLong);
    }
    match scalar(kind, content) {
        Ok(scalar) => Ok(PageCell {
            used,
            content: CellContent::Scalar(scalar),
        }),
        Err(why) => Err(why),
    }
}

/// Whether values of this kind have items.
#[inline(always)]
fn has_items(kind: Kind) -> bool {
    matches!(
        kind,
        Kind::List | Kind::Map | Kind::Set | Kind::Udt | Kind::Tuple
    )
}
