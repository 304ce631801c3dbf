// Written by dist/erase from crates/cqlp_bound_values/src/item.rt.
//! A value at the front of bytes.

use crate::cqlp_bound_values::field::{behind, int_at};

/// What is at the front.
#[derive(Clone, Copy)]
pub(crate) enum Item<'a> {
    /// The length of a value is not there, or is none.
    Missing,
    Null,
    /// The value is not set.
    Unset,
    /// The bytes of a value, as far as they are there.
    Content { bytes: &'a [u8], is_whole: bool },
}

impl<'a> Item<'a> {
    /// A \[value\]. Section 3 of `native_protocol_v4.spec`.
    pub(crate) fn at(bytes: &'a [u8]) -> Item<'a> {
        if bytes.len() < 4 {
            return Item::Missing;
        }
        Item::of(int_at(bytes), behind(4, bytes))
    }

    /// That of this length.
    fn of(length: u32, content: &'a [u8]) -> Item<'a> {
        if length == 0xFFFF_FFFF {
            return Item::Null;
        }
        if length == 0xFFFF_FFFE {
            return Item::Unset;
        }
        if length >= 0x8000_0000 {
            return Item::Missing;
        }
        Item::content(length as usize, content)
    }

    /// An item of a value, which is null where its length is negative.
    pub(crate) fn inner_at(bytes: &'a [u8]) -> Item<'a> {
        if bytes.len() < 4 {
            return Item::Missing;
        }
        Item::inner_of(int_at(bytes), behind(4, bytes))
    }

    fn inner_of(length: u32, content: &'a [u8]) -> Item<'a> {
        if length >= 0x8000_0000 {
            return Item::Null;
        }
        Item::content(length as usize, content)
    }

    fn content(length: usize, content: &'a [u8]) -> Item<'a> {
        Item::Content {
            bytes: &content[..content.len().min(length)],
            is_whole: length <= content.len(),
        }
    }

    /// Whether it is not there.
    pub(crate) fn is_missing(&self) -> bool {
        matches!(self, Item::Missing)
    }

    /// Whether all of it is there.
    pub(crate) fn is_whole(&self) -> bool {
        match *self {
            Item::Missing => false,
            Item::Null | Item::Unset => true,
            Item::Content { bytes: _, is_whole } => is_whole,
        }
    }
}

/// What comes behind a value.
pub(crate) fn behind_item(bytes: &[u8]) -> &[u8] {
    let length = int_at(bytes);
    let content = behind(4, bytes);
    if length >= 0x8000_0000 {
        content
    } else {
        behind(length as usize, content)
    }
}
