// Written by dist/erase from crates/cqlp_bound_values/src/binding.rt.
//! The values that a request binds, where they lie in its message.

use crate::cqlp_bound_values::column_types::ColumnTypes;
use crate::cqlp_bound_values::field::{behind_long_string, behind_string, has, string_at};
use crate::cqlp_bound_values::item::{Item, behind_item};
use crate::cqlp_note::{Header, Opcode};

/// What a request binds to its statement.
#[derive(Clone, Copy)]
pub enum Binding<'a> {
    /// No values.
    Nothing,
    /// What comes before its values is not there, so it may have some.
    Unseen,
    /// At least one value.
    Values(BoundValues<'a>),
}

/// The values that a request binds, as far as they are there.
#[derive(Clone, Copy)]
pub struct BoundValues<'a> {
    /// How many there are to be.
    count: u16,
    /// Whether each has its name before it.
    are_named: bool,
    types: ColumnTypes<'a>,
    bytes: &'a [u8],
}

/// What a request binds to its statement, by the first bytes of the message, behind a custom payload, and those of the PREPARED response for its statement, of
/// which there may be none; of a BATCH what its first statement binds. Sections 4.1.4, 4.1.6 and 4.1.7 of `native_protocol_v4.spec`. Of a body that is
/// compressed, by the header's flags, nothing is seen.
pub fn values_bound_by<'a>(header: &Header, body: &'a [u8], prepared: &'a [u8]) -> Binding<'a> {
    if has(header.flags, 0x01) {
        return Binding::Unseen;
    }
    match header.opcode {
        Opcode::Query => by_parameters(behind_long_string(body), prepared),
        Opcode::Execute => by_parameters(behind_string(body), prepared),
        Opcode::Batch => first_bound(body, prepared),
        _ => Binding::Nothing,
    }
}

/// By the parameters behind a statement: a consistency level, flags, and values if a flag says so.
fn by_parameters<'a>(parameters: &'a [u8], prepared: &'a [u8]) -> Binding<'a> {
    match parameters {
        [_, _, flags, values @ ..] => {
            if has(*flags, 0x01) {
                counted(has(*flags, 0x40), values, prepared)
            } else {
                Binding::Nothing
            }
        }
        _ => Binding::Unseen,
    }
}

/// By the number of values, and what comes behind it.
fn counted<'a>(are_named: bool, bytes: &'a [u8], prepared: &'a [u8]) -> Binding<'a> {
    match bytes.split_first_chunk::<2>() {
        Some((count, values)) => {
            of_count(u16::from_be_bytes(*count), are_named, values, prepared)
        }
        None => Binding::Unseen,
    }
}

fn of_count<'a>(count: u16, are_named: bool, bytes: &'a [u8], prepared: &'a [u8]) -> Binding<'a> {
    if count == 0 {
        return Binding::Nothing;
    }
    let types = ColumnTypes::of(prepared, count);
    Binding::Values(BoundValues {
        count,
        are_named,
        types,
        bytes,
    })
}

/// By the type of a BATCH, the number of its statements, and the first one.
fn first_bound<'a>(body: &'a [u8], prepared: &'a [u8]) -> Binding<'a> {
    match body {
        [_, high, low, entries @ ..] => {
            if *high == 0 && *low == 0 {
                Binding::Nothing
            } else {
                first_entry(entries, prepared)
            }
        }
        _ => Binding::Unseen,
    }
}

/// By the first of the statements of a BATCH.
fn first_entry<'a>(entries: &'a [u8], prepared: &'a [u8]) -> Binding<'a> {
    match entries {
        [kind, entry @ ..] => entry_bound(*kind, entry, prepared),
        [] => Binding::Unseen,
    }
}

/// By a statement of a BATCH, whose values have no names: a text, or the id of one.
fn entry_bound<'a>(kind: u8, entry: &'a [u8], prepared: &'a [u8]) -> Binding<'a> {
    match kind {
        0 => counted(false, behind_long_string(entry), prepared),
        1 => counted(false, behind_string(entry), prepared),
        _ => Binding::Unseen,
    }
}

impl<'a> BoundValues<'a> {
    /// How many there are to be.
    pub(crate) fn count(&self) -> u16 {
        self.count
    }

    /// Whether each has its name before it.
    pub(crate) fn are_named(&self) -> bool {
        self.are_named
    }

    /// The type option of the first one, and what comes behind it.
    pub(crate) fn option(&self) -> &'a [u8] {
        self.types.option()
    }

    /// The name of the first one.
    pub(crate) fn name(&self) -> &'a [u8] {
        string_at(self.bytes)
    }

    /// The first one.
    pub(crate) fn item(&self) -> Item<'a> {
        Item::at(self.content())
    }

    /// What comes behind the name of the first one.
    fn content(&self) -> &'a [u8] {
        if self.are_named {
            behind_string(self.bytes)
        } else {
            self.bytes
        }
    }

    /// The others.
    pub(crate) fn others(&self) -> BoundValues<'a> {
        BoundValues {
            count: self.count - 1,
            are_named: self.are_named,
            types: self.types.others(),
            bytes: behind_item(self.content()),
        }
    }

    /// Whether all bytes of all of them are there.
    pub(crate) fn are_whole(&self) -> bool {
        let mut rest = *self;
        while rest.count > 0 {
            if !rest.item().is_whole() {
                return false;
            }
            rest = rest.others();
        }
        true
    }
}
