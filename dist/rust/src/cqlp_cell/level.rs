// Written by dist/erase from crates/cqlp_cell/src/level.rt.
//! The innermost value that is open, in a caller's hands.

use crate::cqlp_cell::open_values::{OpenValue, Order};
use crate::cqlp_cell::whole::{BareItem, BarePart, DueItem};
use crate::cqlp_kind::Kind;
use crate::cqlp_type::TypeTable;

/// A copy of the innermost value that is open, and of where the reading is in it. A loop over its items changes this in
/// place of the reader, which `CellReader::set_level` then brings to where the loop is.
#[derive(Clone, Copy)]
pub struct Level {
    pub(crate) value: OpenValue,
    /// How many values are open.
    pub(crate) level: u32,
    /// The offset of what is read next.
    pub(crate) offset: u64,
}

/// The kinds of the keys and of the values of a map.
#[derive(Clone, Copy)]
pub struct PairKinds {
    pub key: Kind,
    pub value: Kind,
}

impl Level {
    /// The next item, if there is one.
    #[inline(always)]
    pub(crate) fn due_item(&self, table: &TypeTable) -> Option<DueItem> {
        let value = self.value;
        if value.is_over(self.offset) {
            return None;
        }
        let head = table.node(value.node).unwrap();
        Some(DueItem {
            at: self.offset,
            kind: head.kind,
            room: value.stop - self.offset,
            level: self.level,
        })
    }

    /// The end of the value that this is, where that is a cell and at its end.
    #[inline(always)]
    pub fn ending(&self) -> Option<BareItem> {
        let at = self.offset;
        if self.level > 1 || !self.value.is_over(at) || at < self.value.stop {
            return None;
        }
        let part = BarePart::Leave {
            level: 0,
            items: self.value.items,
        };
        Some(BareItem { at, used: 0, part })
    }

    /// Whether this is a list or a set, whose items are all of one type.
    #[inline(always)]
    pub fn is_list(&self) -> bool {
        matches!(self.value.order, Order::Elements)
    }

    /// The next item of a list or a set, whose items are of this kind, if there is one.
    #[inline(always)]
    pub(crate) fn due_element(&self, kind: Kind) -> Option<DueItem> {
        if self.value.left == 0 {
            return None;
        }
        Some(DueItem {
            at: self.offset,
            kind,
            room: self.value.stop - self.offset,
            level: self.level,
        })
    }

    /// Goes on after the next item of a list or a set, which takes this many bytes.
    #[inline(always)]
    pub(crate) fn pass_element(&mut self, used: usize) {
        self.value.left -= 1;
        self.offset += used as u64;
    }

    /// Goes on after the next item, which takes this many bytes.
    #[inline(always)]
    pub(crate) fn pass(&mut self, used: usize, table: &TypeTable) {
        self.value.pass_item(table);
        self.offset += used as u64;
    }

    /// The kinds of the keys and of the values of a map whose key is next; `None` of another value.
    #[inline(always)]
    #[must_use]
    pub fn pair_kinds(&self, table: &TypeTable) -> Option<PairKinds> {
        let Order::Keys = self.value.order else {
            return None;
        };
        let Some(key) = table.node(self.value.node) else {
            return None;
        };
        let Some(value) = table.node(self.value.other) else {
            return None;
        };
        Some(PairKinds {
            key: key.kind,
            value: value.kind,
        })
    }

    /// The next item of a map, which is of this kind.
    #[inline(always)]
    pub(crate) fn due_in_pair(&self, kind: Kind) -> DueItem {
        DueItem {
            at: self.offset,
            kind,
            room: self.value.stop - self.offset,
            level: self.level,
        }
    }

    /// Whether a pair of a map is left whose key is next.
    #[inline(always)]
    pub fn has_key(&self) -> bool {
        matches!(self.value.order, Order::Keys) && self.value.left > 0
    }

    /// Goes on after a key of a map, which takes this many bytes.
    #[inline(always)]
    pub(crate) fn pass_key(&mut self, used: usize) {
        self.value.switch_type(Order::Values);
        self.value.left -= 1;
        self.offset += used as u64;
    }

    /// Goes on after a value of a map, which takes this many bytes.
    #[inline(always)]
    pub(crate) fn pass_value(&mut self, used: usize) {
        self.value.switch_type(Order::Keys);
        self.offset += used as u64;
    }
}
