// Written by dist/erase from crates/cqlp_cell/src/whole.rt.
//! Items that lie whole at the front of the input.

use crate::cqlp_cell::level::Level;
use crate::cqlp_cell::open_values::OpenValue;
use crate::cqlp_cell::progress::{Arrived, CellDue, CellProgress, DueValue, NextInCell, value_at};
use crate::cqlp_cell::reading::inner_order;
use crate::cqlp_cell::size::{Sized, size_up};
use crate::cqlp_kind::Kind;
use crate::cqlp_kind::content::read_array;
use crate::cqlp_type::TypeTable;

/// The next item of the innermost value that is open, of which nothing has come.
#[derive(Clone, Copy)]
pub struct DueItem {
    /// Where it begins.
    pub at: u64,
    pub kind: Kind,
    /// How many bytes there are from there to the end of the value around it.
    pub room: u64,
    pub level: u32,
}

/// A part of a cell that has no content, which began at this offset, and how many bytes it takes.
#[derive(Clone, Copy)]
pub struct BareItem {
    pub at: u64,
    pub used: usize,
    pub part: BarePart,
}

/// A part of a cell that has no content.
#[derive(Clone, Copy)]
pub enum BarePart {
    /// A value of a negative length.
    Null { level: u32 },
    /// A value of no bytes.
    Empty { level: u32 },
    /// The beginning of a value with items.
    Enter { level: u32, kind: Kind, items: u32 },
    /// The end of such a value.
    Leave { level: u32, items: u32 },
}

/// The beginning of a list, a set or a map, and where the reading is in it.
#[derive(Clone, Copy)]
pub struct Entered {
    pub item: BareItem,
    pub level: Level,
}

impl CellProgress {
    /// The innermost value that is open, where what is read next is in it and nothing of that has come.
    #[inline(always)]
    pub(crate) fn level(&self) -> Option<Level> {
        let Arrived::Nothing = self.arrived else {
            return None;
        };
        let NextInCell::Items = self.next else {
            return None;
        };
        let Some(value) = self.open_values.last() else {
            return None;
        };
        Some(Level {
            value,
            level: self.open_values.len(),
            offset: self.offset,
        })
    }

    /// Goes on where a level is, which is the innermost value from now on.
    #[inline(always)]
    pub(crate) fn set_level(&mut self, level: Level) {
        self.offset = level.offset;
        self.open_values.set_last(level.value);
    }

    /// Takes what is next, where it has no content and all its bytes lie in the input.
    #[inline(always)]
    pub(crate) fn take_bare(&mut self, table: &TypeTable, input: &[u8]) -> Option<BareItem> {
        let Arrived::Nothing = self.arrived else {
            return None;
        };
        match self.due() {
            CellDue::Nothing | CellDue::Part { .. } => None,
            CellDue::Close(value) => {
                let at = self.offset;
                if at < value.stop {
                    return None;
                }
                self.open_values.pop();
                Some(BareItem {
                    at,
                    used: 0,
                    part: BarePart::Leave {
                        level: self.open_values.len(),
                        items: value.items,
                    },
                })
            }
            CellDue::Value => self.take_front(table, input),
        }
    }

    /// Takes the value that is next, where it has no content, or goes on inside it.
    #[inline(always)]
    fn take_front(&mut self, table: &TypeTable, input: &[u8]) -> Option<BareItem> {
        let value = self.value(table);
        let at = self.offset;
        let level = self.open_values.len();
        if value.stop - at < 4 || input.len() < 4 {
            return None;
        }
        let len = u32::from_be_bytes(read_array(input));
        match size_up(&self.limits, value.kind, value.stop - at, len) {
            Sized::Null => {
                self.pass(4, table);
                Some(BareItem {
                    at,
                    used: 4,
                    part: BarePart::Null { level },
                })
            }
            Sized::Empty => {
                self.pass(4, table);
                Some(BareItem {
                    at,
                    used: 4,
                    part: BarePart::Empty { level },
                })
            }
            Sized::Counted(len) => self.take_counted(value, len, table, input),
            Sized::Fields(len) => {
                self.enter_fields(value, len, table);
                Some(BareItem {
                    at,
                    used: 4,
                    part: BarePart::Enter {
                        level,
                        kind: value.kind,
                        items: u32::from(value.arity),
                    },
                })
            }
            Sized::Scalar(_) | Sized::Parts(_) | Sized::Refused(_) => None,
        }
    }

    /// Goes on inside a list, a set or a map of this many bytes, where its count is lawful and lies in the input.
    #[inline(always)]
    fn take_counted(
        &mut self,
        value: DueValue,
        len: u32,
        table: &TypeTable,
        input: &[u8],
    ) -> Option<BareItem> {
        let at = self.offset;
        let level = self.open_values.len();
        if len < 4 || input.len() < 8 {
            return None;
        }
        let count = u32::from_be_bytes(read_array(&input[4..]));
        if count > i32::MAX as u32 {
            return None;
        }
        self.enter_counted(value, len, count, table);
        Some(BareItem {
            at,
            used: 8,
            part: BarePart::Enter {
                level,
                kind: value.kind,
                items: count,
            },
        })
    }

    /// Goes on inside the list, the set or the map that is next, where its length and its count are lawful and lie in the
    /// input.
    #[inline(always)]
    pub(crate) fn enter_value(&mut self, table: &TypeTable, input: &[u8]) -> Option<Entered> {
        let Arrived::Nothing = self.arrived else {
            return None;
        };
        let CellDue::Value = self.due() else {
            return None;
        };
        let value = self.value(table);
        let room = value.stop - self.offset;
        if room < 4 || input.len() < 8 {
            return None;
        }
        let len = u32::from_be_bytes(read_array(input));
        let Sized::Counted(len) = size_up(&self.limits, value.kind, room, len) else {
            return None;
        };
        self.enter_sized(value, len, table, input)
    }

    /// The same of a list, a set or a map of this many bytes.
    #[inline(always)]
    fn enter_sized(
        &mut self,
        value: DueValue,
        len: u32,
        table: &TypeTable,
        input: &[u8],
    ) -> Option<Entered> {
        let at = self.offset;
        let around = self.open_values.len();
        let count = u32::from_be_bytes(read_array(&input[4..]));
        if len < 4 || count > i32::MAX as u32 {
            return None;
        }
        let level = self.open_counted(value, len, count, table);
        let part = BarePart::Enter {
            level: around,
            kind: value.kind,
            items: count,
        };
        Some(Entered {
            item: BareItem { at, used: 8, part },
            level,
        })
    }

    /// The beginning of the list, the set or the map that the next cell of the container is, of the type at this node, where a
    /// level is at the end of the cell before.
    #[inline(always)]
    pub(crate) fn enter_next(
        &self,
        level: Level,
        node: u32,
        table: &TypeTable,
        input: &[u8],
    ) -> Option<Entered> {
        let value = value_at(table, node, self.stop);
        let room = value.stop - level.offset;
        if room < 4 || input.len() < 8 {
            return None;
        }
        let len = u32::from_be_bytes(read_array(input));
        let Sized::Counted(len) = size_up(&self.limits, value.kind, room, len) else {
            return None;
        };
        self.enter_beside(level, node, value, len, table, input)
    }

    /// The same of a list, a set or a map of this many bytes.
    #[inline(always)]
    fn enter_beside(
        &self,
        level: Level,
        node: u32,
        value: DueValue,
        len: u32,
        table: &TypeTable,
        input: &[u8],
    ) -> Option<Entered> {
        let at = level.offset;
        let count = u32::from_be_bytes(read_array(&input[4..]));
        if len < 4 || count > i32::MAX as u32 {
            return None;
        }
        let (order, other) = inner_order(value, table);
        let inside = OpenValue {
            order,
            node: value.inner,
            other,
            left: count,
            items: count,
            stop: at + 4 + u64::from(len),
        };
        let level = Level {
            value: inside,
            level: 1,
            offset: at + 8,
        };
        let part = BarePart::Enter {
            level: 0,
            kind: value.kind,
            items: count,
        };
        let item = BareItem { at, used: 8, part };
        Some(Entered { item, level })
    }
}
