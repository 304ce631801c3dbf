// Written by dist/erase from crates/cqlp_message/src/tally.rt.
//! What is found of the parts of a frame.

use crate::cqlp_message::part::{PartRef, TakesParts};
use crate::cqlp_message::request::OwnedBound;
use crate::cqlp_note::Address;
use crate::cqlp_type::{TypeTree, check_type, type_size};
use crate::cqlp_value::{Value, fitting_size, value_size};

/// What is found of parts.
#[derive(Clone, Copy)]
pub struct Tally {
    /// Each count is one that its notation has.
    pub counts: bool,
    /// Each text and content, but for those in cells, is no longer than its notation says.
    pub texts: bool,
    /// Each cell is a value of its type.
    pub cells: bool,
    /// How many bytes the parts have; 2^64 - 1 where there are more.
    pub size: u64,
}

impl Tally {
    /// That of no part.
    #[inline]
    pub fn new() -> Tally {
        Tally::fixed(0)
    }

    /// Counts those of these parts, too.
    #[inline(always)]
    fn add(&mut self, other: Tally) {
        if !other.is_fit() {
            self.note(other);
        }
        self.size = self.size.saturating_add(other.size);
    }

    /// Whether everything fits.
    #[inline(always)]
    fn is_fit(&self) -> bool {
        self.counts && self.texts && self.cells
    }

    /// Notes what does not fit of these.
    fn note(&mut self, other: Tally) {
        self.counts = self.counts && other.counts;
        self.texts = self.texts && other.texts;
        self.cells = self.cells && other.cells;
    }

    /// That of a part.
    #[inline(always)]
    fn of(part: PartRef<'_>) -> Tally {
        match part {
            PartRef::Cell { tree, value, .. } => Tally::cell(value, tree),
            _ => Tally::of_any(part),
        }
    }

    /// That of a part that is mostly no cell.
    fn of_any(part: PartRef<'_>) -> Tally {
        match part {
            PartRef::Byte(_, _number) => Tally::fixed(1),
            PartRef::Short(_, _number) => Tally::fixed(2),
            PartRef::Int(_, _number) => Tally::fixed(4),
            PartRef::Long(_, _number) => Tally::fixed(8),
            PartRef::Uuid(_, id) => Tally::uuid(*id),
            PartRef::Count16(_, count) => Tally::counted(is_short(count), 2),
            PartRef::Count32(_, count) => Tally::counted(is_int(count), 4),
            PartRef::Text(_, text) => Tally::text(text),
            PartRef::LongText(_, text) => Tally::long_text(text),
            PartRef::ShortBytes(_, bytes) => Tally::content(2, bytes.len(), is_short(bytes.len())),
            PartRef::Bytes(_, None) => Tally::fixed(4),
            PartRef::Bytes(_, Some(bytes)) => Tally::content(4, bytes.len(), is_int(bytes.len())),
            PartRef::Bound(_, value) => Tally::bound(value),
            PartRef::Inet(_, Address::V4(bytes), _port) => Tally::fixed(bytes.len() as u64 + 5),
            PartRef::Inet(_, Address::V6(bytes), _port) => Tally::fixed(bytes.len() as u64 + 5),
            PartRef::Type(tree) => Tally::option(tree),
            PartRef::Cell { tree, value, .. } => Tally::cell(value, tree),
        }
    }

    /// That of a \[uuid\].
    fn uuid(id: [u8; 16]) -> Tally {
        Tally::fixed(id.len() as u64)
    }

    /// That of a \[string\].
    fn text(text: &str) -> Tally {
        Tally::content(2, text.len(), is_short(text.len()))
    }

    /// That of a \[long string\].
    fn long_text(text: &str) -> Tally {
        Tally::content(4, text.len(), is_int(text.len()))
    }

    /// That of a \[value\].
    fn bound(value: &OwnedBound) -> Tally {
        match value {
            OwnedBound::Bytes(bytes) => Tally::content(4, bytes.len(), is_int(bytes.len())),
            OwnedBound::Null | OwnedBound::Unset => Tally::fixed(4),
        }
    }

    /// That of a type option.
    fn option(tree: &TypeTree) -> Tally {
        let check = check_type(tree);
        Tally {
            counts: check.counts,
            texts: check.texts,
            cells: true,
            size: type_size(tree),
        }
    }

    /// That of a cell.
    #[inline(always)]
    fn cell(value: &Value, tree: Option<&TypeTree>) -> Tally {
        match fitting_size(value, tree) {
            Some(size) => Tally::fixed(size),
            None => Tally {
                cells: false,
                ..Tally::fixed(value_size(value))
            },
        }
    }

    /// That of a part of this many bytes, in which everything fits.
    #[inline(always)]
    fn fixed(size: u64) -> Tally {
        Tally {
            counts: true,
            texts: true,
            cells: true,
            size,
        }
    }

    /// That of a count.
    fn counted(counts: bool, size: u64) -> Tally {
        Tally {
            counts,
            ..Tally::fixed(size)
        }
    }

    /// That of a content after its length.
    fn content(length: u64, content: usize, texts: bool) -> Tally {
        Tally {
            texts,
            ..Tally::fixed(length.saturating_add(content as u64))
        }
    }
}

/// Whether a \[short\] can count this many.
fn is_short(count: usize) -> bool {
    count < 1 << 16
}

/// Whether an \[int\] can count this many.
fn is_int(count: usize) -> bool {
    count < 1 << 31
}

impl TakesParts for Tally {
    #[inline(always)]
    fn take(&mut self, part: PartRef<'_>) {
        self.add(Tally::of(part));
    }
}
