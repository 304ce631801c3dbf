// Written by dist/erase from crates/cqlp_build_cells/src/held.rt.
//! The events that are held of a cell, and what is taken of them.

use crate::kit_std::prelude::{KitVec};
use crate::cqlp_build_cells::step::Step;
use crate::kit_std::alloc::{AllocError};
use crate::kit_std::collections::VecDeque;

/// Why nothing more is taken.
#[derive(Clone, Copy, Debug, PartialEq, Eq)]
pub enum Fault {
    /// Another event was due, or none.
    NoValue,
    /// Memory was refused.
    NoMemory,
}

/// The events of a cell, each of which is taken once. What takes one gives a value, and where another event was due some value, and
/// keeps the fault: nothing is taken after it.
pub struct CellEvents {
    /// Each at its level.
    pub(crate) items: VecDeque<(u32, Step)>,
    pub(crate) fault: Option<Fault>,
}

impl CellEvents {
    /// No events, for which it asks for no memory.
    pub fn new() -> CellEvents {
        CellEvents {
            items: VecDeque::new(),
            fault: None,
        }
    }

    /// Forgets all events. The room that it has asked for is kept.
    pub fn clear(&mut self) {
        self.items.clear();
    }

    /// Holds one more event, at its level.
    ///
    /// # Errors
    ///
    /// [`AllocError`] where memory was refused, after which it is as it was.
    pub fn kit_push(&mut self, level: u32, step: Step) -> Result<(), AllocError> {
        self.items.kit_reserve(1)?;
        self.items.push_back_reserved((level, step));
        Ok(())
    }

    /// Takes the next event, if nothing was refused, and gives it if it is at this level.
    pub fn next(&mut self, level: usize) -> Option<Step> {
        if self.fault.is_some() {
            return None;
        }
        let Some((found, step)) = self.items.pop_front() else {
            return None;
        };
        if found as usize == level {
            Some(step)
        } else {
            None
        }
    }

    /// Whether the end of a value comes next.
    pub fn is_at_leave(&self) -> bool {
        matches!(self.items.front(), Some((_, Step::Leave(_))))
    }

    /// Whether nothing is left.
    pub fn is_over(&self) -> bool {
        self.items.is_empty()
    }

    /// How many are left.
    pub fn how_many(&self) -> usize {
        self.items.len()
    }

    /// Takes the end of a value at this level, after this many items.
    pub fn leave(&mut self, level: usize, count: usize) {
        let next = self.next(level);
        if leaves(&next, count) {
            return;
        }
        self.refuse(Fault::NoValue);
    }

    /// Takes nothing more, for this reason if there was none.
    pub fn refuse(&mut self, why: Fault) {
        if self.fault.is_none() {
            self.fault = Some(why);
        }
    }

    /// Refuses what is left, unless this is so.
    pub fn check(&mut self, holds: bool) {
        if holds {
            return;
        }
        self.refuse(Fault::NoValue);
    }
}

/// Whether it is the end of a value after this many items.
fn leaves(next: &Option<Step>, count: usize) -> bool {
    match next {
        Some(Step::Leave(found)) => *found as usize == count,
        _ => false,
    }
}
