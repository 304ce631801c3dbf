// Written by dist/erase from crates/cqlp_cell/src/reading.rt.
//! The steps of reading a cell.

use crate::kit_std::prelude::{KitVec};
use crate::cqlp_cell::advance::{CellAdvance, CellOutline};
use crate::cqlp_cell::content::kind_read;
use crate::cqlp_cell::gather::{empty, gather, lend_bytes};
use crate::cqlp_cell::level::Level;
use crate::cqlp_cell::number::{Number, take_number};
use crate::cqlp_cell::open_values::{OpenValue, Order};
use crate::cqlp_cell::progress::{Arrived, CellDue, CellProgress, DueValue, NextInCell};
use crate::cqlp_cell::size::{Sized, size_up};
use crate::cqlp_kind::Kind;
use crate::cqlp_kind::content::fault;
use crate::cqlp_note::{Partial, Reason, Refusal};
use crate::cqlp_type::TypeTable;

impl CellProgress {
    /// Takes the next bytes of the cell. An item without a content, and a refusal, leave the buffer empty.
    #[inline]
    pub(crate) fn advance(
        &mut self,
        partial: &mut Partial,
        table: &TypeTable,
        input: &[u8],
    ) -> CellAdvance {
        let answer = self.step(partial, table, input);
        if answer.is_bare() {
            empty(partial);
        }
        answer
    }

    /// Takes the next bytes of the cell.
    #[cfg_attr(not(feature = "cli"), inline)]
    fn step(&mut self, partial: &mut Partial, table: &TypeTable, input: &[u8]) -> CellAdvance {
        match self.arrived {
            Arrived::Nothing => match self.due() {
                CellDue::Nothing => {
                    self.end();
                    CellAdvance::Done
                }
                CellDue::Close(value) => self.leave(value, partial, table, input),
                CellDue::Value => self.advance_length(false, partial, table, input),
                CellDue::Part { offset, total } => {
                    self.advance_part(false, offset, total, partial, table, input)
                }
            },
            Arrived::Length => self.advance_length(true, partial, table, input),
            Arrived::Scalar(len) => {
                let value = self.value(table);
                self.advance_scalar(true, value, len, 0, partial, table, input)
            }
            Arrived::Counted(len) => {
                let value = self.value(table);
                self.advance_count(true, value, len, 0, partial, table, input)
            }
            Arrived::First(total) => self.advance_first(true, total, 0, partial, table, input),
            Arrived::Later => match self.next {
                NextInCell::Part { offset, total } => {
                    self.advance_part(true, offset, total, partial, table, input)
                }
                NextInCell::Items => {
                    let value = self.open_values.last().unwrap();
                    self.advance_further(true, value, partial, table, input)
                }
                NextInCell::Nothing => unreachable!(),
                NextInCell::Cell(_) => unreachable!(),
            },
        }
    }

    /// Takes the next bytes of a scalar of this many bytes, whose length is read.
    #[cfg_attr(not(feature = "cli"), inline)]
    fn advance_scalar(
        &mut self,
        begun: bool,
        value: DueValue,
        len: u32,
        start: usize,
        partial: &mut Partial,
        table: &TypeTable,
        input: &[u8],
    ) -> CellAdvance {
        let Some(found) = gather(partial, begun, len, self.offset + 4, start, input) else {
            self.arrived = Arrived::Scalar(len);
            return CellAdvance::More { used: input.len() };
        };
        let bytes = lend_bytes(partial, input, found.content);
        let Some(kind) = kind_read(self.limits.lenient, value.kind, bytes) else {
            return self.refuse(self.offset, fault(value.kind));
        };
        let at = self.offset;
        let level = self.open_values.len();
        self.pass(4 + u64::from(len), table);
        CellAdvance::Item {
            at,
            used: found.used,
            item: CellOutline::Leaf {
                level,
                kind,
                content: found.content,
            },
        }
    }

    /// Takes the next bytes of a list, a set or a map of this many bytes, whose length is read.
    #[cfg_attr(not(feature = "cli"), inline)]
    fn advance_count(
        &mut self,
        begun: bool,
        value: DueValue,
        len: u32,
        start: usize,
        partial: &mut Partial,
        table: &TypeTable,
        input: &[u8],
    ) -> CellAdvance {
        let at = self.offset + 4;
        match take_number(partial, begun, at, at + u64::from(len), start, input) {
            Number::More => {
                self.arrived = Arrived::Counted(len);
                CellAdvance::More { used: input.len() }
            }
            Number::Overrun => self.refuse(at, Reason::Overrun),
            Number::Got { used, number } => {
                if number > i32::MAX as u32 {
                    return self.refuse(at, Reason::BadCount);
                }
                let at = self.offset;
                let item = self.enter_counted(value, len, number, table);
                CellAdvance::Item { at, used, item }
            }
        }
    }

    /// Goes on inside a list, a set or a map of this many bytes, which has this many elements or pairs.
    #[cfg_attr(not(feature = "cli"), inline)]
    pub(crate) fn enter_counted(
        &mut self,
        value: DueValue,
        len: u32,
        count: u32,
        table: &TypeTable,
    ) -> CellOutline {
        let level = self.open_values.len();
        self.open_counted(value, len, count, table);
        CellOutline::Enter {
            level,
            kind: value.kind,
            items: count,
        }
    }

    /// The same, and says where it is in it.
    #[inline(always)]
    pub(crate) fn open_counted(
        &mut self,
        value: DueValue,
        len: u32,
        count: u32,
        table: &TypeTable,
    ) -> Level {
        let stop = self.offset + 4 + u64::from(len);
        let (order, other) = inner_order(value, table);
        self.pass(8, table);
        let offset = self.offset;
        let value = OpenValue {
            order,
            node: value.inner,
            other,
            left: count,
            items: count,
            stop,
        };
        self.open_values.kit_push(value);
        let level = self.open_values.len();
        Level {
            value,
            level,
            offset,
        }
    }

    /// Goes on inside a tuple or a user-defined type of this many bytes.
    #[cfg_attr(not(feature = "cli"), inline)]
    pub(crate) fn enter_fields(
        &mut self,
        value: DueValue,
        len: u32,
        table: &TypeTable,
    ) -> CellOutline {
        let level = self.open_values.len();
        let stop = self.offset + 4 + u64::from(len);
        let arity = u32::from(value.arity);
        self.pass(4, table);
        self.open_values.kit_push(OpenValue {
            order: Order::Fields,
            node: value.inner,
            other: 0,
            left: arity,
            items: 0,
            stop,
        });
        CellOutline::Enter {
            level,
            kind: value.kind,
            items: arity,
        }
    }

    /// Takes the next bytes of the first part of a scalar of this many bytes, whose length is read.
    #[cfg_attr(not(feature = "cli"), inline)]
    fn advance_first(
        &mut self,
        begun: bool,
        total: u32,
        start: usize,
        partial: &mut Partial,
        table: &TypeTable,
        input: &[u8],
    ) -> CellAdvance {
        let at = self.offset + 4;
        let size = self.limits.cell;
        let Some(found) = gather(partial, begun, size, at, start, input) else {
            self.arrived = Arrived::First(total);
            return CellAdvance::More { used: input.len() };
        };
        let level = self.open_values.len();
        self.pass(4 + u64::from(size), table);
        self.next = NextInCell::Part {
            offset: size,
            total,
        };
        CellAdvance::Item {
            at,
            used: found.used,
            item: CellOutline::Part {
                level,
                offset: 0,
                content: found.content,
                last: false,
            },
        }
    }

    /// Takes the next bytes of a later part of a scalar of `total` bytes, from this offset in it.
    #[cfg_attr(not(feature = "cli"), inline)]
    fn advance_part(
        &mut self,
        begun: bool,
        offset: u32,
        total: u32,
        partial: &mut Partial,
        table: &TypeTable,
        input: &[u8],
    ) -> CellAdvance {
        let left = total - offset;
        let size = self.limits.cell.min(left);
        let Some(found) = gather(partial, begun, size, self.offset, 0, input) else {
            self.arrived = Arrived::Later;
            return CellAdvance::More { used: input.len() };
        };
        let at = self.offset;
        let last = left <= self.limits.cell;
        self.offset += u64::from(size);
        self.arrived = Arrived::Nothing;
        self.next = next_part(last, offset + size, total);
        CellAdvance::Item {
            at,
            used: found.used,
            item: CellOutline::Part {
                level: self.open_values.len(),
                offset,
                content: found.content,
                last,
            },
        }
    }

    /// Goes on after the length of a value, which ends after this many bytes of the input.
    #[cfg_attr(not(feature = "cli"), inline)]
    fn after_length(
        &mut self,
        value: DueValue,
        len: u32,
        start: usize,
        partial: &mut Partial,
        table: &TypeTable,
        input: &[u8],
    ) -> CellAdvance {
        let at = self.offset;
        let level = self.open_values.len();
        match size_up(&self.limits, value.kind, value.stop - at, len) {
            Sized::Null => self.pass_length(CellOutline::Null { level }, start, table),
            Sized::Empty => self.pass_length(CellOutline::Empty { level }, start, table),
            Sized::Scalar(len) => {
                self.advance_scalar(false, value, len, start, partial, table, input)
            }
            Sized::Parts(len) => self.advance_first(false, len, start, partial, table, input),
            Sized::Counted(len) => {
                self.advance_count(false, value, len, start, partial, table, input)
            }
            Sized::Fields(len) => {
                let item = self.enter_fields(value, len, table);
                CellAdvance::Item {
                    at,
                    used: start,
                    item,
                }
            }
            Sized::Refused(why) => self.refuse(at, why),
        }
    }

    /// Goes on after a value that has a length alone.
    #[inline]
    fn pass_length(&mut self, item: CellOutline, used: usize, table: &TypeTable) -> CellAdvance {
        let at = self.offset;
        self.pass(4, table);
        CellAdvance::Item { at, used, item }
    }

    /// Takes the next bytes of a value whose length is not read.
    #[cfg_attr(not(feature = "cli"), inline)]
    fn advance_length(
        &mut self,
        begun: bool,
        partial: &mut Partial,
        table: &TypeTable,
        input: &[u8],
    ) -> CellAdvance {
        let value = self.value(table);
        match take_number(partial, begun, self.offset, value.stop, 0, input) {
            Number::More => {
                self.arrived = Arrived::Length;
                CellAdvance::More { used: input.len() }
            }
            Number::Overrun => self.refuse(self.offset, Reason::Overrun),
            Number::Got { used, number } => {
                self.after_length(value, number, used, partial, table, input)
            }
        }
    }

    /// Ends the innermost value, or goes on behind its last field, where the caller is lenient.
    #[cfg_attr(not(feature = "cli"), inline)]
    fn leave(
        &mut self,
        value: OpenValue,
        partial: &mut Partial,
        table: &TypeTable,
        input: &[u8],
    ) -> CellAdvance {
        if value.has_further(&self.limits, self.offset) {
            self.advance_further(false, value, partial, table, input)
        } else {
            self.close(value)
        }
    }

    /// Takes the next bytes behind the last field of the innermost value, which come as the parts of a long scalar do.
    #[cfg_attr(not(feature = "cli"), inline)]
    fn advance_further(
        &mut self,
        begun: bool,
        value: OpenValue,
        partial: &mut Partial,
        table: &TypeTable,
        input: &[u8],
    ) -> CellAdvance {
        let total = (value.stop - self.offset) as u32;
        self.next = NextInCell::Part { offset: 0, total };
        let answer = self.advance_part(begun, 0, total, partial, table, input);
        if let CellAdvance::More { .. } = answer {
            self.next = NextInCell::Items;
        }
        answer
    }

    /// Ends the innermost value.
    #[cfg_attr(not(feature = "cli"), inline)]
    fn close(&mut self, value: OpenValue) -> CellAdvance {
        let at = self.offset;
        if at < value.stop {
            return self.refuse(at, Reason::ExtraInValue);
        }
        self.open_values.pop();
        CellAdvance::Item {
            at,
            used: 0,
            item: CellOutline::Leave {
                level: self.open_values.len(),
                items: value.items,
            },
        }
    }

    /// Ends the cell by a refusal of what begins at this offset.
    #[cfg_attr(not(feature = "cli"), inline)]
    fn refuse(&mut self, at: u64, why: Reason) -> CellAdvance {
        self.end();
        CellAdvance::Refused(Refusal { at, why })
    }
}

/// What is read after a part.
fn next_part(last: bool, offset: u32, total: u32) -> NextInCell {
    if last {
        NextInCell::Items
    } else {
        NextInCell::Part { offset, total }
    }
}

/// How the items of a list, a set or a map follow one another, and the node of a map's second type.
#[inline(always)]
pub(crate) fn inner_order(value: DueValue, table: &TypeTable) -> (Order, u32) {
    match value.kind {
        Kind::Map => (
            Order::Keys,
            value.inner + table.node(value.inner).unwrap().span,
        ),
        _ => (Order::Elements, 0),
    }
}
