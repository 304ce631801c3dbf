// Written by dist/erase from crates/cqlp_cell/src/advance.rt.
//! What a piece of input makes of a cell, with nothing borrowed.

use crate::cqlp_cell::gather::lend_bytes;
use crate::cqlp_cell::item::CellItem;
use crate::cqlp_kind::Kind;
use crate::cqlp_kind::content::make_scalar;
use crate::cqlp_note::{FieldOutline, Partial, Refusal};

/// A part of a cell, or where its content lies.
#[derive(Clone, Copy)]
pub enum CellOutline {
    /// A scalar, whose content lies there.
    Leaf {
        level: u32,
        kind: Kind,
        content: FieldOutline,
    },
    /// A value of a negative length.
    Null {
        level: u32,
    },
    /// A value of no bytes.
    Empty {
        level: u32,
    },
    /// The beginning of a value with items.
    Enter {
        level: u32,
        kind: Kind,
        items: u32,
    },
    /// The end of such a value.
    Leave {
        level: u32,
        items: u32,
    },
    /// Bytes of a long scalar, which lie there.
    Part {
        level: u32,
        offset: u32,
        content: FieldOutline,
        last: bool,
    },
}

/// What a piece of input made of a cell, with nothing borrowed.
#[derive(Clone, Copy)]
pub enum CellAdvance {
    /// All of it was used, and the cell goes on.
    More {
        used: usize,
    },
    /// This many of its bytes end a part, which began at this offset.
    Item {
        at: u64,
        used: usize,
        item: CellOutline,
    },
    /// The cell is whole. No byte was used.
    Done,
    /// The cell ends, since it is refused.
    Refused(Refusal),
}

impl CellAdvance {
    /// Whether it is an item without a content, or a refusal.
    #[inline]
    pub(crate) fn is_bare(&self) -> bool {
        match self {
            CellAdvance::More { .. } | CellAdvance::Done => false,
            CellAdvance::Refused(_) => true,
            CellAdvance::Item { item, .. } => {
                !matches!(item, CellOutline::Leaf { .. } | CellOutline::Part { .. })
            }
        }
    }
}

impl CellOutline {
    /// The part, with its content lent from where it lies.
    #[inline]
    pub(crate) fn lend<'a>(self, partial: &'a Partial, input: &'a [u8]) -> CellItem<'a> {
        match self {
            CellOutline::Leaf {
                level,
                kind,
                content,
            } => CellItem::Leaf {
                level,
                scalar: make_scalar(kind, lend_bytes(partial, input, content)),
            },
            CellOutline::Null { level } => CellItem::Null { level },
            CellOutline::Empty { level } => CellItem::Empty { level },
            CellOutline::Enter { level, kind, items } => CellItem::Enter { level, kind, items },
            CellOutline::Leave { level, items } => CellItem::Leave { level, items },
            CellOutline::Part {
                level,
                offset,
                content,
                last,
            } => CellItem::Part {
                level,
                offset,
                bytes: lend_bytes(partial, input, content),
                last,
            },
        }
    }
}
