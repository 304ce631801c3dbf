// Written by dist/erase from crates/cqlp_grammar/src/following.rt.
//! What follows a header, and what follows a field.

use crate::kit_std::prelude::{KitNumber, KitVec};
use crate::cqlp_grammar::grammar::{Group, Role};
use crate::cqlp_grammar::productions::{
    Expected, Want, body_fields, counted, error_fields, event_fields, plain, result_fields,
    target_fields,
};
use crate::cqlp_grammar::upcoming::Upcoming;
use crate::cqlp_note::{Field, Header, Notation, Prim, Reason};

impl Upcoming {
    /// Begins a message: the parts that its header announces, and its fields.
    pub fn begin(&mut self, header: &Header) {
        self.clear();
        self.push_fields(body_fields(header.opcode));
        self.push_if(
            has(header.flags.into(), 0x04),
            counted!(PayloadItems, Group::PayloadItems),
        );
        self.push_if(
            header.response && has(header.flags.into(), 0x08),
            counted!(Warnings, Group::Warnings),
        );
        self.push_if(
            header.response && has(header.flags.into(), 0x02),
            plain!(TraceId, Uuid),
        );
    }

    /// Puts what follows a field of this role, that has this value, before all else, but for the cells of a page.
    #[inline(always)]
    pub(crate) fn follow(&mut self, role: Role, value: Prim<'_>) {
        // Nothing follows most fields.
        if let Role::Alone = role {
            return;
        }
        let number = number(value);
        match role {
            Role::Alone => {}
            Role::Counts(group) => self.push_many(group, number),
            Role::QueryFlags => self.push_query_parts(number),
            Role::EntryKind => self.push_entry_parts(number),
            Role::BatchFlags => self.push_batch_parts(number),
            Role::ErrorCode => {
                self.push_fields(error_fields(number));
                self.kit_push(plain!(Message, Text16));
            }
            Role::ResultKind => self.push_fields(result_fields(number)),
            Role::ChangeTarget => self.push_fields(target_fields(text(value))),
            Role::EventType => self.push_fields(event_fields(text(value))),
            Role::MetaFlags { rows } => {
                let flags = number;
                self.push_count(Field::Columns, Role::MetaColumns { rows, flags });
            }
            Role::MetaColumns { rows, flags } => self.push_metadata(rows, flags, number),
            Role::PreparedFlags => {
                self.push_count(Field::Columns, Role::PreparedColumns { flags: number });
            }
            Role::PreparedColumns { flags } => {
                let columns = number;
                self.push_count(Field::Keys, Role::PreparedKeys { flags, columns });
            }
            Role::PreparedKeys { flags, columns } => {
                self.push_prepared(flags, columns, number);
            }
            Role::PageRows { .. } => {}
        }
    }

    /// A count that is an \[int\].
    fn push_count(&mut self, field: Field, role: Role) {
        let notation = Notation::Count32;
        self.kit_push(Expected::Field(Want {
            field,
            notation,
            role,
        }));
    }

    /// The rest of metadata after the number of its columns, and the number of rows where they follow.
    fn push_metadata(&mut self, rows: bool, flags: u32, columns: u32) {
        let rows_due = Expected::Field(Want {
            field: Field::Rows,
            notation: Notation::Count32,
            role: Role::PageRows { flags, columns },
        });
        self.push_if(rows, rows_due);
        if !has(flags, 0x04) {
            self.push_specs(flags, columns);
        }
        self.push_if(has(flags, 0x02), plain!(PagingState, Bytes32));
    }

    /// The rest of the metadata of a prepared statement's values, and the metadata of its result.
    fn push_prepared(&mut self, flags: u32, columns: u32, keys: u32) {
        let result_flags = Expected::Field(Want {
            field: Field::MetaFlags,
            notation: Notation::Int,
            role: Role::MetaFlags { rows: false },
        });
        self.kit_push(result_flags);
        self.push_specs(flags, columns);
        self.push_many(Group::KeyIndexes, keys);
    }

    /// The columns of a table, or of several.
    fn push_specs(&mut self, flags: u32, columns: u32) {
        let one_table = has(flags, 0x01);
        self.push_many(Group::Columns { one_table }, columns);
        self.push_if(one_table, plain!(Table, Text16));
        self.push_if(one_table, plain!(Keyspace, Text16));
    }

    /// The parameters of a query that these flags announce.
    fn push_query_parts(&mut self, flags: u32) {
        self.push_if(has(flags, 0x20), plain!(Timestamp, Long));
        self.push_if(has(flags, 0x10), plain!(SerialConsistency, Short));
        self.push_if(has(flags, 0x08), plain!(PagingState, Bytes32));
        self.push_if(has(flags, 0x04), plain!(PageSize, Int));
        let named = has(flags, 0x40);
        self.push_if(
            has(flags, 0x01),
            counted!(Values, Group::QueryValues { named }),
        );
    }

    /// The parts at a batch's end that these flags announce.
    fn push_batch_parts(&mut self, flags: u32) {
        self.push_if(has(flags, 0x20), plain!(Timestamp, Long));
        self.push_if(has(flags, 0x10), plain!(SerialConsistency, Short));
    }

    /// The statement of a batch's entry, and its values.
    fn push_entry_parts(&mut self, kind: u32) {
        self.kit_push(counted!(Values, Group::BatchValues));
        if kind == 0 {
            self.kit_push(plain!(Query, Text32));
        } else {
            self.kit_push(plain!(StatementId, Bytes16));
        }
    }
}

/// Why a field of this role may not have this value.
pub fn fault_in(role: Role, value: Prim<'_>) -> Option<Reason> {
    match role {
        Role::EntryKind if number(value) > 1 => Some(Reason::BadBatchKind),
        Role::BatchFlags if has(number(value), 0x4F) => Some(Reason::BadBatchFlags),
        _ => None,
    }
}

/// A value's number, unsigned.
pub fn number(value: Prim<'_>) -> u32 {
    match value {
        Prim::Byte(number) => number.into(),
        Prim::Short(number) => number.into(),
        Prim::Count(number) => number,
        Prim::Int(number) => number.kit_other_sign(),
        _ => 0,
    }
}

/// A value's text.
fn text(value: Prim<'_>) -> &str {
    match value {
        Prim::Text(text) => text,
        _ => "",
    }
}

/// Whether some bit of these is set.
pub fn has(flags: u32, bits: u32) -> bool {
    flags & bits > 0
}
