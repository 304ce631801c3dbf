// Written by dist/erase from crates/cqlp_build/src/nesting.rt.
//! How deep type options are nested.

use crate::kit_std::prelude::{KitVec};
use crate::cqlp_grammar::Event;
use crate::cqlp_kind::Kind;
use crate::cqlp_note::Field;
use crate::kit_std::alloc::{AllocError};
use crate::kit_std::collections::VecDeque;

/// The type options in which others are still to begin, and those around them.
pub(crate) struct Nesting {
    /// How many inner options of each have not begun, the innermost first.
    pub left: VecDeque<u32>,
}

impl Nesting {
    /// None.
    pub fn new() -> Nesting {
        Nesting {
            left: VecDeque::new(),
        }
    }

    /// At what depth this event begins a type option, that of a column being at 1; 0 where it begins none.
    pub fn depth_at(&self, event: &Event<'_>) -> usize {
        match event {
            Event::TypeNode(_) => self.left.len() + 1,
            _ => 0,
        }
    }

    /// Asks for room for one more.
    pub fn make_room(&mut self) -> Result<(), AllocError> {
        self.left.kit_reserve(1)
    }

    /// Goes on after an event, for which there is room.
    pub(crate) fn pass_event(&mut self, event: &Event<'_>) {
        match *event {
            Event::TypeNode(kind) => self.begin(kind),
            Event::Count {
                field: Field::Fields,
                count,
            } => self.count(count),
            _ => {}
        }
    }

    /// A type option of this kind begins.
    fn begin(&mut self, kind: Kind) {
        if let Some(left) = self.left.front_mut() {
            *left = left.saturating_sub(1);
        }
        self.left.push_front_reserved(due(kind));
        self.close();
    }

    /// The inner options of the innermost are this many.
    fn count(&mut self, count: u32) {
        if let Some(left) = self.left.front_mut() {
            *left = count;
            self.close();
        }
    }

    /// Lets go of the innermost that have none.
    fn close(&mut self) {
        while let Some(0) = self.left.front() {
            self.left.pop_front();
        }
    }
}

/// How many inner options of a type option of this kind are to begin; where they are counted, one before their count comes.
fn due(kind: Kind) -> u32 {
    match kind {
        Kind::Udt | Kind::Tuple => 1,
        _ => u32::from(kind.arity()),
    }
}
