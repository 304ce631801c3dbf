// Written by dist/erase from crates/cqlp_build/src/lists.rt.
//! Items that come one after the other.

use crate::kit_std::prelude::{KitVec, String, Vec};
use crate::cqlp_build::held::{Fault, FrameEvents};
use crate::cqlp_message::{BatchEntry, OwnedBound};
use crate::cqlp_note::Field;

/// What the items of a list are to be, where their type does not say it.
#[derive(Clone, Copy)]
pub(crate) struct Wanted {
    /// The field that each is.
    pub field: Field,
    /// Whether each has a name, or a column a table of its own.
    pub named: bool,
}

impl Wanted {
    /// Items whose type says it.
    pub const PLAIN: Wanted = Wanted {
        field: Field::Value,
        named: false,
    };
}

/// What is built of the events that come next.
pub(crate) trait FromEvents: Sized {
    /// Takes the events of one.
    fn build(held: &mut FrameEvents, wanted: Wanted) -> Self;
}

impl FromEvents for String {
    fn build(held: &mut FrameEvents, wanted: Wanted) -> Self {
        held.text(wanted.field)
    }
}

impl FromEvents for (String, String) {
    fn build(held: &mut FrameEvents, _wanted: Wanted) -> Self {
        let key = held.text(Field::OptionKey);
        let value = held.text(Field::OptionValue);
        (key, value)
    }
}

impl FromEvents for (String, Vec<String>) {
    fn build(held: &mut FrameEvents, _wanted: Wanted) -> Self {
        let key = held.text(Field::OptionKey);
        let values = held.texts(Field::OptionValues, Field::OptionValue);
        (key, values)
    }
}

impl FromEvents for (String, Option<Vec<u8>>) {
    fn build(held: &mut FrameEvents, _wanted: Wanted) -> Self {
        let key = held.text(Field::PayloadKey);
        let value = held.bytes(Field::PayloadValue);
        (key, value)
    }
}

impl FromEvents for OwnedBound {
    fn build(held: &mut FrameEvents, _wanted: Wanted) -> Self {
        held.bound()
    }
}

impl FromEvents for (Option<String>, OwnedBound) {
    fn build(held: &mut FrameEvents, wanted: Wanted) -> Self {
        let name = held.name_if(wanted.named);
        let value = held.bound();
        (name, value)
    }
}

impl FromEvents for BatchEntry {
    fn build(held: &mut FrameEvents, _wanted: Wanted) -> Self {
        match held.byte(Field::EntryKind) {
            0 => {
                let text = held.text(Field::Query);
                let values = held.batch_values();
                BatchEntry::Text(text, values)
            }
            1 => {
                let id = held.statement();
                let values = held.batch_values();
                BatchEntry::Id(id, values)
            }
            _ => {
                held.refuse(Fault::NoFrame);
                BatchEntry::Id(Vec::new(), Vec::new())
            }
        }
    }
}

impl FrameEvents {
    /// Takes this many items.
    pub fn many<T: FromEvents>(&mut self, count: u32, wanted: Wanted) -> Vec<T> {
        let mut items = Vec::new();
        for _ in 0..count {
            let item = T::build(self, wanted);
            if self.fault.is_some() {
                return items;
            }
            if items.kit_push(item).is_err() {
                self.fault = Some(Fault::NoMemory);
                return items;
            }
        }
        items
    }

    /// Takes a number of items, and the items.
    pub fn counted<T: FromEvents>(&mut self, field: Field, wanted: Wanted) -> Vec<T> {
        let count = self.count(field);
        self.many(count, wanted)
    }

    /// Takes a \[string list\].
    pub fn texts(&mut self, list: Field, item: Field) -> Vec<String> {
        self.counted(
            list,
            Wanted {
                field: item,
                named: false,
            },
        )
    }
}
