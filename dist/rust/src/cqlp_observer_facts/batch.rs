// Written by dist/erase from crates/cqlp_observer_facts/src/batch.rt.
//! A BATCH. Section 4.1.7 of `native_protocol_v4.spec`.

use crate::cqlp_observer_facts::due::{Due, Next, past_text};
use crate::cqlp_observer_facts::facts::Fact;
use crate::cqlp_observer_facts::numbers::{byte, int, short};
use crate::cqlp_observer_facts::query::past_value;

/// A field of a BATCH.
#[derive(Clone, Copy)]
pub(crate) enum BatchField {
    Type,
    /// How many statements there are.
    Count,
    /// Whether a statement is a text or an id, before so many more.
    Kind { more: u16 },
    Text { more: u16 },
    Id { more: u16 },
    /// How many values a statement has.
    ValueCount { more: u16 },
    /// A value, before so many more, and before so many more statements.
    Value { values: u16, more: u16 },
    Consistency,
}

impl BatchField {
    #[inline(always)]
    pub(crate) fn width(&self) -> usize {
        match self {
            BatchField::Type | BatchField::Kind { .. } => 1,
            BatchField::Count
            | BatchField::Id { .. }
            | BatchField::ValueCount { .. }
            | BatchField::Consistency => 2,
            BatchField::Text { .. } | BatchField::Value { .. } => 4,
        }
    }

    /// What follows the field that these bytes are.
    #[inline(always)]
    pub(crate) fn following(&self, bytes: &[u8]) -> Next {
        match *self {
            BatchField::Type => Next::at(Due::Batch(BatchField::Count)),
            BatchField::Count => Next::at(entries_due(short(bytes))),
            BatchField::Kind { more } => Next::at(kind_following(byte(bytes), more)),
            BatchField::Text { more } => {
                past_text(bytes, Due::Batch(BatchField::ValueCount { more }))
            }
            BatchField::Id { more } => id_following(bytes, more),
            BatchField::ValueCount { more } => Next::at(entry_values_due(short(bytes), more)),
            BatchField::Value { values, more } => {
                past_value(int(bytes), entry_values_due(values, more))
            }
            BatchField::Consistency => Next::says(Fact::Consistency(short(bytes)), Due::Over),
        }
    }
}

/// What follows the id of a statement, before so many more.
#[inline(always)]
pub(crate) fn id_following(bytes: &[u8], more: u16) -> Next {
    Next::past(
        short(bytes).into(),
        Due::Batch(BatchField::ValueCount { more }),
    )
}

/// So many statements, and what follows them.
#[inline(always)]
fn entries_due(count: u16) -> Due {
    if count == 0 {
        Due::Batch(BatchField::Consistency)
    } else {
        Due::Batch(BatchField::Kind { more: count - 1 })
    }
}

/// What follows the kind of a statement: 0 is a text, and 1 an id.
#[inline(always)]
pub(crate) fn kind_following(kind: u8, more: u16) -> Due {
    if kind == 0 {
        Due::Batch(BatchField::Text { more })
    } else if kind == 1 {
        Due::Batch(BatchField::Id { more })
    } else {
        Due::Over
    }
}

/// So many values of a statement, and what follows them.
#[inline(always)]
pub(crate) fn entry_values_due(count: u16, more: u16) -> Due {
    if count == 0 {
        entries_due(more)
    } else {
        Due::Batch(BatchField::Value {
            values: count - 1,
            more,
        })
    }
}
