// Written by dist/erase from crates/cqlp_note/src/field.rt.
//! How fields are written, and which they are.

/// How a field is written. Section 3 of `native_protocol_v4.spec`; all numbers have their highest byte first.
#[derive(Clone, Copy)]
pub enum Notation {
    /// \[byte\]: one byte.
    Byte,
    /// \[short\]: two bytes, unsigned.
    Short,
    /// \[int\]: four bytes, signed.
    Int,
    /// \[long\]: eight bytes, signed.
    Long,
    /// \[uuid\]: 16 bytes.
    Uuid,
    /// A count that is a \[short\].
    Count16,
    /// A count that is an \[int\], and not negative.
    Count32,
    /// \[string\]: a \[short\] n, and n bytes of UTF-8.
    Text16,
    /// \[long string\]: an \[int\] n that is not negative, and n bytes of UTF-8.
    Text32,
    /// \[short bytes\]: a \[short\] n, and n bytes.
    Bytes16,
    /// \[bytes\]: an \[int\] n, and n bytes; null where n is negative.
    Bytes32,
    /// \[value\]: an \[int\] n, and n bytes; null where n is -1, not set where it is -2, and never below.
    Bound,
    /// \[inet\]: a \[byte\] n, 4 or 16, n bytes of address, and the port, an \[int\].
    Inet,
    /// This many bytes, with no length before them.
    Content(u32),
}

/// What a field of a message is. Sections of `native_protocol_v4.spec` are named where a field first comes.
#[derive(Clone, Copy, Debug, PartialEq, Eq)]
pub enum Field {
    /// The id of the tracing session, a \[uuid\], where the header has the flag 02. Section 2.2.
    TraceId,
    /// How many warnings come, a \[short\], where the header has the flag 08. Section 2.2.
    Warnings,
    /// One of them, a \[string\].
    Warning,
    /// How many items the custom payload has, a \[short\], where the header has the flag 04. Section 2.2.
    PayloadItems,
    /// The key of an item, a \[string\].
    PayloadKey,
    /// The value of an item, \[bytes\].
    PayloadValue,
    /// How many options come, a \[short\]: of STARTUP, section 4.1.1, or of SUPPORTED, section 4.2.4.
    Options,
    /// The name of an option, a \[string\].
    OptionKey,
    /// The value of an option, or one of its values, a \[string\].
    OptionValue,
    /// How many values an option of SUPPORTED has, a \[short\].
    OptionValues,
    /// The text of a query, a \[long string\]. Sections 4.1.4, 4.1.5 and 4.1.7.
    Query,
    /// The id of a prepared statement, \[short bytes\]. Sections 4.1.6, 4.1.7, 4.2.5.4 and 9.
    StatementId,
    /// How many types of events are asked for, a \[short\]. Section 4.1.8.
    EventTypes,
    /// A type of events, a \[string\]: one that is asked for, or that of an EVENT. Sections 4.1.8 and 4.2.6.
    EventType,
    /// What either side says to authenticate, \[bytes\]. Sections 4.1.2, 4.2.7 and 4.2.8.
    Token,
    /// The kind of a batch, a \[byte\]: 0 logged, 1 unlogged, 2 of counters. Section 4.1.7.
    BatchType,
    /// How many statements a batch has, a \[short\].
    Entries,
    /// Whether a statement of a batch comes as a text, 0, or by the id of a prepared one, 1: a \[byte\].
    EntryKind,
    /// A level of consistency, a \[short\]. Section 3.
    Consistency,
    /// What a batch has after its consistency, a \[byte\]: 10 a serial consistency, 20 a timestamp.
    BatchFlags,
    /// The level of consistency of the serial phase, a \[short\].
    SerialConsistency,
    /// The time that the statements have by default, in microseconds from 1970, a \[long\].
    Timestamp,
    /// What a query has after its consistency, a \[byte\]. Section 4.1.4.
    QueryFlags,
    /// How many values are bound, a \[short\].
    Values,
    /// The name of a bound value, a \[string\].
    ValueName,
    /// A bound value, a \[value\].
    Value,
    /// How many rows a page of the result is to have, an \[int\].
    PageSize,
    /// Where the result goes on, \[bytes\]. Sections 4.1.4 and 4.2.5.2.
    PagingState,
    /// The name of a class, a \[string\]: of an authenticator, section 4.2.3, or of a custom type, section 4.2.5.2.
    Class,
    /// What an ERROR is of, an \[int\]. Section 9.
    ErrorCode,
    /// What an ERROR says, a \[string\]. Section 4.2.1.
    Message,
    /// How many replicas had to be alive, an \[int\]. Section 9.
    Required,
    /// How many replicas were alive, an \[int\]. Section 9.
    Alive,
    /// How many replicas answered, an \[int\]. Section 9.
    Received,
    /// How many replicas had to answer, an \[int\]. Section 9.
    BlockFor,
    /// What kind of write it was, a \[string\]. Section 9.
    WriteType,
    /// Whether the replica that was asked for data answered, a \[byte\], 0 where it did not. Section 9.
    DataPresent,
    /// How many replicas failed, an \[int\]. Section 9.
    Failures,
    /// The name of a keyspace, a \[string\].
    Keyspace,
    /// The name of a table, a type, a function or an aggregate, a \[string\]. Sections 4.2.5.5 and 9.
    Name,
    /// How many arguments a function has, a \[short\].
    Arguments,
    /// The type of an argument, a \[string\].
    Argument,
    /// The name of a table, a \[string\].
    Table,
    /// What a RESULT is, an \[int\]: 1 nothing, 2 rows, 3 a keyspace, 4 a prepared statement, 5 a change of the
    /// schema. Section 4.2.5.
    ResultKind,
    /// How many rows come, an \[int\]. Section 4.2.5.2.
    Rows,
    /// What the metadata have, an \[int\]: 1 one table for all columns, 2 more pages, 4 no columns. Section 4.2.5.2.
    MetaFlags,
    /// How many columns there are, an \[int\].
    Columns,
    /// How many of the bound values make the partition key, an \[int\]. Section 4.2.5.4.
    Keys,
    /// The place of one of them among the bound values, a \[short\].
    KeyIndex,
    /// The name of a column, a \[string\].
    ColumnName,
    /// What was done, a \[string\]. Sections 4.2.5.5 and 4.2.6.
    Change,
    /// What a change of the schema was done to, a \[string\]. Section 4.2.5.5.
    Target,
    /// The node that an event is about, an \[inet\]. Section 4.2.6.
    Address,
    /// The name of a user defined type, a \[string\]. Section 4.2.5.2.
    TypeName,
    /// How many fields a user defined type or a tuple has, a \[short\].
    Fields,
    /// The name of a field of a user defined type, a \[string\].
    FieldName,
}
