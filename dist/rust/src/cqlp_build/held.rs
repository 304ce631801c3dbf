// Written by dist/erase from crates/cqlp_build/src/held.rt.
//! The events that are held of a frame, and what is taken of them.

use crate::kit_std::prelude::{String, Vec};
use crate::cqlp_build::content::FromContent;
use crate::cqlp_build::held_events::HeldEvents;
use crate::cqlp_build::item::{Content, Item};
use crate::cqlp_build_cells::{CellEvents, Step};
use crate::cqlp_kind::Kind;
use crate::cqlp_message::OwnedBound;
use crate::cqlp_note::{Address, Field};

/// Whether some of these bits is set.
pub(crate) fn has_flag(flags: u8, bits: u8) -> bool {
    flags & bits > 0
}

/// Why nothing more is taken.
#[derive(Clone, Copy, Debug, PartialEq, Eq)]
pub(crate) enum Fault {
    /// Another event was due, or none.
    NoFrame,
    /// Memory was refused.
    NoMemory,
}

/// The events after a header, each of which is taken once. What takes one gives a value, and where another event was due some
/// value, and keeps the fault: nothing is taken after it.
pub(crate) struct FrameEvents {
    pub items: HeldEvents,
    /// The events of the cell that is under way.
    pub cell: CellEvents,
    /// How many bytes the cells of the page have that was taken last, each with its length, where that was counted as they came.
    pub cells_size: Option<u64>,
    pub fault: Option<Fault>,
}

impl FrameEvents {
    /// Takes the next event, if nothing was refused, and gives what it holds if it is this field.
    fn next(&mut self, field: Field) -> Option<Content> {
        if self.fault.is_some() {
            return None;
        }
        let Some(item) = self.items.pop_front() else {
            return None;
        };
        let Item::Holds(found, content) = item else {
            return None;
        };
        if found == field { Some(content) } else { None }
    }

    /// Takes the next event, if nothing was refused, and gives the kind if it is that of a type option.
    pub fn next_kind(&mut self) -> Option<Kind> {
        if self.fault.is_some() {
            return None;
        }
        match self.items.pop_front() {
            Some(Item::Kind(kind)) => Some(kind),
            _ => None,
        }
    }

    /// Takes the next event, if nothing was refused, and gives it with its level if it is of the cell of this row and column.
    pub fn next_step(&mut self, row: u32, column: u32) -> Option<(u32, Step)> {
        if self.fault.is_some() {
            return None;
        }
        let Some(item) = self.items.pop_front() else {
            return None;
        };
        let Item::Cell {
            row: found_row,
            column: found_column,
            level,
            step,
        } = item
        else {
            return None;
        };
        if matches!(step, Step::Leave(_)) || (found_row == row && found_column == column) {
            Some((level, step))
        } else {
            None
        }
    }

    /// Takes the next event, and gives the value that it holds, if it is this field with such a value.
    fn found<T: FromContent>(&mut self, field: Field) -> Option<T> {
        match self.next(field) {
            Some(content) => T::of(content),
            None => None,
        }
    }

    /// Takes a field that holds such a value.
    fn take<T: FromContent>(&mut self, field: Field) -> T {
        match self.found(field) {
            Some(value) => value,
            None => {
                self.refuse(Fault::NoFrame);
                T::none()
            }
        }
    }

    /// Takes nothing more, for this reason if there was none.
    pub fn refuse(&mut self, why: Fault) {
        if self.fault.is_none() {
            self.fault = Some(why);
        }
    }

    /// Refuses what is left, unless this is so.
    pub fn check(&mut self, holds: bool) {
        if holds {
            return;
        }
        self.refuse(Fault::NoFrame);
    }

    /// Takes a \[byte\].
    pub fn byte(&mut self, field: Field) -> u8 {
        self.take(field)
    }

    /// Takes a \[short\].
    pub fn short(&mut self, field: Field) -> u16 {
        self.take(field)
    }

    /// Takes an \[int\].
    pub fn int(&mut self, field: Field) -> i32 {
        self.take(field)
    }

    /// Takes a \[long\].
    pub fn long(&mut self, field: Field) -> i64 {
        self.take(field)
    }

    /// Takes a \[uuid\].
    pub fn uuid(&mut self, field: Field) -> [u8; 16] {
        self.take(field)
    }

    /// Takes a count.
    pub fn count(&mut self, field: Field) -> u32 {
        self.take(field)
    }

    /// Takes a text.
    pub fn text(&mut self, field: Field) -> String {
        self.take(field)
    }

    /// Takes \[bytes\], which may be null.
    pub fn bytes(&mut self, field: Field) -> Option<Vec<u8>> {
        self.take(field)
    }

    /// Takes the id of a statement, which is not null.
    pub fn statement(&mut self) -> Vec<u8> {
        self.take(Field::StatementId)
    }

    /// Takes a \[value\].
    pub fn bound(&mut self) -> OwnedBound {
        self.take(Field::Value)
    }

    /// Takes an \[inet\].
    pub fn inet(&mut self) -> (Address, i32) {
        self.take(Field::Address)
    }
}
