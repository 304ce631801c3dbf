// Written by dist/erase from crates/cqlp_cell/src/progress.rt.
//! What is read next of a cell.

use crate::cqlp_cell::open_values::{OpenValue, OpenValues, Order};
use crate::cqlp_kind::Kind;
use crate::cqlp_note::{Asked};
use crate::cqlp_type::TypeTable;

/// What is read next.
#[derive(Clone, Copy)]
pub(crate) enum NextInCell {
    /// No cell is under way.
    Nothing,
    /// The cell, of the type at this node, or of none.
    Cell(Option<u32>),
    /// What the open values say.
    Items,
    /// The bytes of a long scalar, or those behind the last field of the innermost value, from this offset on, of this many
    /// in all.
    Part { offset: u32, total: u32 },
}

/// How much of it has come.
#[derive(Clone, Copy)]
pub(crate) enum Arrived {
    /// Nothing.
    Nothing,
    /// Some of a value's length.
    Length,
    /// The length of a scalar, and some of its content.
    Scalar(u32),
    /// The length of a list, a set or a map, and some of its count.
    Counted(u32),
    /// The length of a long scalar, and some of its first part.
    First(u32),
    /// Some of a later part, or of the first one behind the last field of the innermost value.
    Later,
}

/// What comes next, where nothing of it has come.
#[derive(Clone, Copy)]
pub(crate) enum CellDue {
    Nothing,
    Value,
    Close(OpenValue),
    Part { offset: u32, total: u32 },
}

/// A value that is read next: its type, and where the value around it ends.
#[derive(Clone, Copy)]
pub(crate) struct DueValue {
    pub kind: Kind,
    pub arity: u16,
    /// The node of its first inner type.
    pub inner: u32,
    pub stop: u64,
}

/// Where the reading of a cell is.
pub(crate) struct CellProgress {
    pub limits: Asked,
    /// The offset of what is read next.
    pub offset: u64,
    /// Where the cell's container ends.
    pub stop: u64,
    pub next: NextInCell,
    pub arrived: Arrived,
    pub open_values: OpenValues,
}

impl CellProgress {
    /// What comes next, where nothing of it has come.
    #[inline]
    pub(crate) fn due(&self) -> CellDue {
        match self.next {
            NextInCell::Nothing => CellDue::Nothing,
            NextInCell::Cell(_) => CellDue::Value,
            NextInCell::Part { offset, total } => CellDue::Part { offset, total },
            NextInCell::Items => match self.open_values.last() {
                None => CellDue::Nothing,
                Some(value) => {
                    if value.is_over(self.offset) {
                        CellDue::Close(value)
                    } else {
                        CellDue::Value
                    }
                }
            },
        }
    }

    /// The value that is read next.
    #[inline]
    pub(crate) fn value(&self, table: &TypeTable) -> DueValue {
        match self.next {
            NextInCell::Cell(node) => cell_value(table, node, self.stop),
            NextInCell::Items => {
                let value = self.open_values.last().unwrap();
                value_at(table, value.node, value.stop)
            }
            NextInCell::Nothing => unreachable!(),
            NextInCell::Part { .. } => unreachable!(),
        }
    }

    /// Goes on after this many bytes of the value that was read, or of what is known of it.
    #[inline(always)]
    pub(crate) fn pass(&mut self, size: u64, table: &TypeTable) {
        if let NextInCell::Items = self.next {
            self.open_values.pass_item(table);
        }
        self.offset += size;
        self.next = NextInCell::Items;
        self.arrived = Arrived::Nothing;
    }

    /// Ends the cell.
    #[inline(always)]
    pub(crate) fn end(&mut self) {
        self.next = NextInCell::Nothing;
        self.arrived = Arrived::Nothing;
        self.open_values.clear();
    }
}

/// The value that the cell is.
#[inline]
fn cell_value(table: &TypeTable, node: Option<u32>, stop: u64) -> DueValue {
    match node {
        Some(node) => value_at(table, node, stop),
        None => DueValue {
            kind: Kind::Raw,
            arity: 0,
            inner: 0,
            stop,
        },
    }
}

/// A value of the type at this node, in a value that ends there.
#[inline]
pub(crate) fn value_at(table: &TypeTable, node: u32, stop: u64) -> DueValue {
    let head = table.node(node).unwrap();
    DueValue {
        kind: head.kind,
        arity: head.arity,
        inner: node + 1,
        stop,
    }
}

/// Whether so many bytes behind the last field of a value are read on, since the caller is lenient.
#[inline]
fn lenient_excess(limits: &Asked, left: u64) -> bool {
    limits.lenient && 0 < limits.cell && 0 < left && left < 1 << 32
}

impl OpenValue {
    /// Whether no further item begins at this offset.
    #[inline]
    pub(crate) fn is_over(self, offset: u64) -> bool {
        match self.order {
            Order::Elements | Order::Keys => self.left == 0,
            Order::Values => false,
            Order::Fields => self.left == 0 || self.stop <= offset,
        }
    }

    /// Whether bytes behind its last field are read on from this offset, since the caller is lenient.
    #[inline]
    pub(crate) fn has_further(self, limits: &Asked, offset: u64) -> bool {
        match self.order {
            Order::Fields => lenient_excess(limits, self.stop - offset),
            Order::Elements | Order::Keys | Order::Values => false,
        }
    }

    /// Goes on after its next item.
    #[inline(always)]
    pub(crate) fn pass_item(&mut self, table: &TypeTable) {
        match self.order {
            Order::Elements => self.left -= 1,
            Order::Keys => {
                self.switch_type(Order::Values);
                self.left -= 1;
            }
            Order::Values => self.switch_type(Order::Keys),
            Order::Fields => {
                self.node += table.node(self.node).unwrap().span;
                self.left -= 1;
                self.items += 1;
            }
        }
    }

    /// Goes on with the other of a map's types.
    #[inline(always)]
    pub(crate) fn switch_type(&mut self, order: Order) {
        let node = self.node;
        self.order = order;
        self.node = self.other;
        self.other = node;
    }
}
