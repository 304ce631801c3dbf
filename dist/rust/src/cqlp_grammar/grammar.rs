// Written by dist/erase from crates/cqlp_grammar/src/grammar.rt.
//! The words of the productions, by which messages are read field by field.

/// What a count counts: the fields of one item. Sections 3 and 4 of `native_protocol_v4.spec`.
#[derive(Clone, Copy)]
pub enum Group {
    /// The warnings before a message.
    Warnings,
    /// The keys and values of a custom payload.
    PayloadItems,
    /// The pairs of a \[string map\].
    StringPairs,
    /// The keys of a \[string multimap\], each with its values.
    OptionLists,
    OptionValues,
    EventTypes,
    /// The values of a query, with names or without.
    QueryValues { named: bool },
    BatchValues,
    BatchEntries,
    /// The types of a function's arguments.
    Arguments,
    /// The bound variables that make up a partition key.
    KeyIndexes,
    /// The columns of one table, or each with its own keyspace and table.
    Columns { one_table: bool },
}

/// What follows from the value of a field.
#[derive(Clone, Copy)]
pub enum Role {
    /// Nothing.
    Alone,
    /// This many of these groups.
    Counts(Group),
    /// The parts of a query's parameters that these flags announce.
    QueryFlags,
    /// The fields of a batch's entry of this kind.
    EntryKind,
    /// The parts at a batch's end that these flags announce.
    BatchFlags,
    /// The fields of an error of this code.
    ErrorCode,
    /// The fields of a result of this kind.
    ResultKind,
    /// The names of a changed target of this kind.
    ChangeTarget,
    /// The fields of an event of this type.
    EventType,
    /// The columns of metadata under these flags, which rows may follow.
    MetaFlags { rows: bool },
    /// The rest of metadata under these flags.
    MetaColumns { rows: bool, flags: u32 },
    /// The columns of a prepared statement's values under these flags.
    PreparedFlags,
    /// Its partition key.
    PreparedColumns { flags: u32 },
    /// The rest of its metadata, of this many columns.
    PreparedKeys { flags: u32, columns: u32 },
    /// The rows of a page of this many columns, whose metadata has these flags.
    PageRows { flags: u32, columns: u32 },
}
