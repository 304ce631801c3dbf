// Written by dist/erase from crates/cqlp_cell/src/open_values.rt.
//! The values around the one that is read.

use crate::kit_std::prelude::{KitVec, Vec};
use crate::cqlp_note::NoMemory;
use crate::cqlp_type::TypeTable;

/// What is read next in an open value.
#[derive(Clone, Copy)]
pub(crate) enum Order {
    /// An element of a list or a set.
    Elements,
    /// A key of a map.
    Keys,
    /// A value of a map, whose key was read.
    Values,
    /// An item of a tuple or a user-defined type.
    Fields,
}

/// A value whose items are read.
#[derive(Clone, Copy)]
pub(crate) struct OpenValue {
    pub order: Order,
    /// The node of the next item's type.
    pub node: u32,
    /// The node of the item's type that takes turns with it, in a map.
    pub other: u32,
    /// How many elements, pairs or fields have not begun.
    pub left: u32,
    /// How many elements or pairs there are in all; how many fields were read.
    pub items: u32,
    /// Where the value ends.
    pub stop: u64,
}

/// The open values, the outermost first.
pub(crate) struct OpenValues {
    values: Vec<OpenValue>,
    room: u32,
}

impl OpenValues {
    /// With room for this many.
    #[cfg_attr(not(feature = "cli"), inline)]
    pub(crate) fn new(room: u32) -> Result<Self, NoMemory> {
        Ok(OpenValues {
            values: Vec::kit_with_capacity(room as usize)?,
            room,
        })
    }

    #[inline]
    pub(crate) fn len(&self) -> u32 {
        self.values.len() as u32
    }

    /// How many values its memory has places for: the room, for as long as it lives.
    #[cfg_attr(not(feature = "cli"), inline)]
    pub(crate) fn capacity(&self) -> usize {
        self.values.capacity()
    }

    #[inline]
    pub(crate) fn clear(&mut self) {
        self.values.clear();
    }

    /// The innermost value.
    #[inline]
    pub(crate) fn last(&self) -> Option<OpenValue> {
        self.values.last().copied()
    }

    #[inline]
    pub(crate) fn kit_push(&mut self, value: OpenValue) {
        self.values.push_reserved(value);
    }

    /// Closes the innermost value.
    #[inline]
    pub(crate) fn pop(&mut self) {
        self.values.pop();
    }

    /// Puts this in the place of the innermost value, if there is one.
    #[inline(always)]
    pub(crate) fn set_last(&mut self, value: OpenValue) {
        let len = self.values.len();
        if len > 0 {
            self.values[len - 1] = value;
        }
    }

    /// Goes on after the next item of the innermost value.
    #[inline(always)]
    pub(crate) fn pass_item(&mut self, table: &TypeTable) {
        let len = self.values.len();
        if len > 0 {
            self.values[len - 1].pass_item(table);
        }
    }
}
