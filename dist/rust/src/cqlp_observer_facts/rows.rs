// Written by dist/erase from crates/cqlp_observer_facts/src/rows.rt.
//! A RESULT of kind Rows. Section 4.2.5.2 of `native_protocol_v4.spec`.

use crate::cqlp_observer_facts::announced::past_bytes;
use crate::cqlp_observer_facts::due::{Due, Next};
use crate::cqlp_observer_facts::facts::Fact;
use crate::cqlp_observer_facts::numbers::{array, has, int, is_negative, short};
use crate::cqlp_observer_facts::types::{Types, TypesNext};

/// A field of a page's metadata, or the number of its rows.
#[derive(Clone, Copy)]
pub(crate) enum RowsField {
    Flags,
    ColumnCount { flags: u32 },
    PagingState { flags: u32, columns: u32 },
    /// A name, before so many more, and what follows them.
    Name { more: u16, types: Types },
    /// The id of a type, before these.
    Type { types: Types },
    /// A name of a UDT: its own, or before that the one of its keyspace.
    UdtName { is_own: bool, types: Types },
    /// How many fields a UDT has.
    FieldCount { types: Types },
    /// How many types a tuple has.
    ItemCount { types: Types },
    RowCount,
}

impl RowsField {
    #[inline(always)]
    pub(crate) fn width(&self) -> usize {
        match self {
            RowsField::Flags
            | RowsField::ColumnCount { .. }
            | RowsField::PagingState { .. }
            | RowsField::RowCount => 4,
            RowsField::Name { .. }
            | RowsField::Type { .. }
            | RowsField::UdtName { .. }
            | RowsField::FieldCount { .. }
            | RowsField::ItemCount { .. } => 2,
        }
    }

    /// What follows the field that these bytes are.
    #[inline(always)]
    pub(crate) fn following(&self, bytes: &[u8]) -> Next {
        match *self {
            RowsField::Flags => page_flags_following(bytes),
            RowsField::ColumnCount { flags } => columns_following(flags, bytes),
            RowsField::PagingState { flags, columns } => {
                past_bytes(int(bytes), columns_due(flags, columns))
            }
            RowsField::Name { more, types } => {
                Next::past(short(bytes).into(), names_due(more, types))
            }
            RowsField::Type { types } => Next::at(after_option(short(bytes), types)),
            RowsField::UdtName { is_own, types } => {
                Next::past(short(bytes).into(), udt_due(is_own, types))
            }
            RowsField::FieldCount { types } => Next::at(fields_due(short(bytes), types)),
            RowsField::ItemCount { types } => {
                Next::at(types_due(types.with_types(short(bytes).into())))
            }
            RowsField::RowCount => row_count(bytes),
        }
    }
}

/// What follows the flags.
#[inline(always)]
pub(crate) fn page_flags_following(bytes: &[u8]) -> Next {
    let flags = int(bytes);
    Next::says(
        Fact::HasMorePages(has_more_pages(flags)),
        Due::Rows(RowsField::ColumnCount { flags }),
    )
}

/// What follows the number of columns.
#[inline(always)]
pub(crate) fn columns_following(flags: u32, bytes: &[u8]) -> Next {
    let count = int(bytes);
    if is_negative(count) {
        Next::at(Due::Over)
    } else {
        Next::says(
            Fact::Columns(i32::from_be_bytes(array(bytes))),
            paged_columns_due(flags, count),
        )
    }
}

/// Whether more pages follow: the flag 02 says that there is a paging state.
#[inline(always)]
fn has_more_pages(flags: u32) -> bool {
    has(flags, 0x02)
}

/// The paging state, if there is one, and the columns.
#[inline(always)]
fn paged_columns_due(flags: u32, columns: u32) -> Due {
    if has_more_pages(flags) {
        Due::Rows(RowsField::PagingState { flags, columns })
    } else {
        columns_due(flags, columns)
    }
}

/// The columns: none by the flag 04, and after one keyspace and table for all by the flag 01.
#[inline(always)]
fn columns_due(flags: u32, columns: u32) -> Due {
    if has(flags, 0x04) {
        Due::Rows(RowsField::RowCount)
    } else if has(flags, 0x01) {
        Due::Rows(RowsField::Name {
            more: 1,
            types: Types::of_columns(columns, false),
        })
    } else {
        types_due(Types::of_columns(columns, true))
    }
}

/// So many names, and what follows them.
#[inline(always)]
fn names_due(count: u16, types: Types) -> Due {
    if count == 0 {
        types_due(types)
    } else {
        Due::Rows(RowsField::Name {
            more: count - 1,
            types,
        })
    }
}

/// Types and fields, and then the number of rows.
#[inline(always)]
fn types_due(types: Types) -> Due {
    match types.next() {
        TypesNext::Type(types) => Due::Rows(RowsField::Type { types }),
        TypesNext::Names { more, types } => Due::Rows(RowsField::Name { more, types }),
        TypesNext::Over => Due::Rows(RowsField::RowCount),
    }
}

/// What follows the id of a type: of a custom one its name, of a list or a set one type and of a map two, of a UDT its names and fields, of
/// a tuple its types.
#[inline(always)]
fn after_option(id: u16, types: Types) -> Due {
    match id {
        0x0000 => names_due(1, types),
        0x0020 => types_due(types.with_types(1)),
        0x0021 => types_due(types.with_types(2)),
        0x0022 => types_due(types.with_types(1)),
        0x0030 => Due::Rows(RowsField::UdtName {
            is_own: false,
            types,
        }),
        0x0031 => Due::Rows(RowsField::ItemCount { types }),
        _ => {
            if is_plain(id) {
                types_due(types)
            } else {
                Due::Over
            }
        }
    }
}

/// Whether nothing follows the id of such a type.
#[inline(always)]
pub(crate) fn is_plain(id: u16) -> bool {
    id <= 0x0014 && id != 0x000A
}

/// What follows a name of a UDT.
#[inline(never)]
fn udt_due(is_own: bool, types: Types) -> Due {
    if is_own {
        Due::Rows(RowsField::FieldCount { types })
    } else {
        Due::Rows(RowsField::UdtName {
            is_own: true,
            types,
        })
    }
}

/// The fields of a UDT, and these types after them; none if they lie too deep.
#[inline(never)]
fn fields_due(count: u16, types: Types) -> Due {
    match types.with_fields(count.into()) {
        Some(types) => types_due(types),
        None => Due::Over,
    }
}

/// The number of rows.
#[inline(always)]
pub(crate) fn row_count(bytes: &[u8]) -> Next {
    if is_negative(int(bytes)) {
        Next::at(Due::Over)
    } else {
        Next::says(Fact::Rows(i32::from_be_bytes(array(bytes))), Due::Over)
    }
}
