// Written by dist/erase from crates/cqlp_type_tables/src/making.rt.
//! A table out of types.

use crate::kit_std::prelude::{Vec};
use crate::cqlp_type_tables::found::find;
use crate::cqlp_type_tables::typed::HasType;
use crate::cqlp_type_tables::writing::put_tree;
use crate::cqlp_message::Spec;
use crate::cqlp_note::{Header, Limits, NoMemory, Partial};
use crate::cqlp_type::{TypeAdvance, TypeReader, TypeTable, TypeTree};

error! {
/// Why there is no table of types.
#[derive(Clone, Copy, Debug, PartialEq, Eq)]
pub enum TableError {
    /// One of the types has no option: `check_type` says what is in the way.
    #[error("a type cannot be written")]
    NotWritable,
    /// The options of the types have more than 268,435,456 bytes together, so no body of a frame has them.
    #[error("the types are longer than the body of a frame can be")]
    TooLong,
    /// Memory for the table, or for the reading of its types, was refused.
    #[error("no memory")]
    NoMemory,
}
}

/// The table that the options of these types leave once they are read, one after the other, with room for just their
/// nodes. Such a table is what `Decoder::give` takes for a page without metadata: the types of its columns in order.
/// Section 4.2.5.2 of `native_protocol_v4.spec`.
///
/// The memory that the reading takes is given back before it returns.
///
/// # Errors
///
/// [`TableError::NotWritable`] where one of the types has no option, and else [`TableError::TooLong`] where their options have too
/// many bytes together; [`TableError::NoMemory`] only where neither holds.
#[cfg_attr(not(feature = "cli"), inline)]
pub fn table_of(
    types: &[TypeTree],
) -> Result<TypeTable, TableError> {
    make(types)
}

/// The table of the types of these columns, as [`table_of`] makes it: of the `specs` of a page's `Metadata` or of what a
/// `Prepared` has for its pages, the one for those pages without metadata; of the `specs` of a `Prepared` itself, the types
/// of the values that are to be bound. Sections 4.2.5.2 and 4.2.5.4 of `native_protocol_v4.spec`.
///
/// # Errors
///
/// As [`table_of`] has them of the types alone: no name is in the way.
#[cfg_attr(not(feature = "cli"), inline)]
pub fn table_of_specs(
    specs: &[Spec],
) -> Result<TypeTable, TableError> {
    make(specs)
}

/// The table of the types of these.
fn make<T: HasType>(items: &[T]) -> Result<TypeTable, TableError> {
    let found = find(items);
    if !found.is_writable() {
        return Err(TableError::NotWritable);
    }
    if found.size > Header::LONGEST_BODY as u64 {
        return Err(TableError::TooLong);
    }
    match read_types(items, found.size as u32, found.nodes as u32) {
        Ok(table) => Ok(table),
        Err(_) => Err(TableError::NoMemory),
    }
}

/// The same of types whose options have this many bytes, and which have this many nodes.
fn read_types<T: HasType>(
    items: &[T],
    size: u32,
    nodes: u32,
) -> Result<TypeTable, NoMemory> {
    let limits = Limits {
        text: size.min(LONGEST_TEXT),
        cell: 0,
        entries: nodes,
        depth: nodes,
        types: true,
        parts: false,
    };
    let mut table = TypeTable::new(nodes)?;
    let mut partial = Partial::new(limits.text)?;
    let mut reader = TypeReader::new(&limits)?;
    let mut option = Vec::new();
    for item in items {
        add_type(
            &mut reader,
            &mut partial,
            &mut table,
            &mut option,
            item.tree(),
        )?;
    }
    Ok(table)
}

/// The most bytes of a text in an option.
const LONGEST_TEXT: u32 = 65_535;

/// Adds a type: its option, as it is read.
#[cfg_attr(not(feature = "cli"), inline)]
fn add_type(
    reader: &mut TypeReader,
    partial: &mut Partial,
    table: &mut TypeTable,
    option: &mut Vec<u8>,
    tree: &TypeTree,
) -> Result<(), NoMemory> {
    option.clear();
    put_tree(option, tree)?;
    reader.begin(0, option.len() as u64);
    let mut start = 0;
    loop {
        match reader.advance(partial, table, &option[start..]) {
            TypeAdvance::Item { used, .. } => start += used,
            TypeAdvance::Done => return Ok(()),
            TypeAdvance::More { .. } => unreachable!(),
            TypeAdvance::Refused(_) => unreachable!(),
        }
    }
}
