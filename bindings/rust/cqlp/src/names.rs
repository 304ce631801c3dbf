//! Fields, kinds, opcodes, reasons and codes, by name.

use std::fmt;

/// Writes an enum of numbers of the library. A number that a later library adds is `Other`.
macro_rules! numbers {
    ($(#[$what:meta])* $name:ident: $of:ty { $($(#[$doc:meta])* $variant:ident = $number:path, $word:literal;)* }) => {
        $(#[$what])*
        #[derive(Clone, Copy, Debug, PartialEq, Eq, Hash)]
        #[non_exhaustive]
        pub enum $name {
            $($(#[$doc])* $variant,)*
            /// A number that has no name here.
            Other($of),
        }

        impl $name {
            /// What has this number.
            pub fn of(number: $of) -> $name {
                match number {
                    $($number => $name::$variant,)*
                    other => $name::Other(other),
                }
            }

            /// Its number.
            pub fn number(self) -> $of {
                match self {
                    $($name::$variant => $number,)*
                    $name::Other(number) => number,
                }
            }
        }

        /// As `cqlp show` writes it.
        impl fmt::Display for $name {
            fn fmt(&self, f: &mut fmt::Formatter<'_>) -> fmt::Result {
                match self {
                    $($name::$variant => f.pad($word),)*
                    $name::Other(number) => number.fmt(f),
                }
            }
        }
    };
}

numbers! {
    /// The field of a message that an event has.
    Field: u8 {
        /// The id of the tracing session, a `[uuid]`, where the header has the flag 02. Section 2.2.
        TraceId = cqlp_sys::CQLP_FIELD_TRACE_ID, "TraceId";
        /// How many warnings come, a `[short]`, where the header has the flag 08. Section 2.2.
        Warnings = cqlp_sys::CQLP_FIELD_WARNINGS, "Warnings";
        /// One of them, a `[string]`.
        Warning = cqlp_sys::CQLP_FIELD_WARNING, "Warning";
        /// How many items the custom payload has, a `[short]`, where the header has the flag 04. Section 2.2.
        PayloadItems = cqlp_sys::CQLP_FIELD_PAYLOAD_ITEMS, "PayloadItems";
        /// The key of an item, a `[string]`.
        PayloadKey = cqlp_sys::CQLP_FIELD_PAYLOAD_KEY, "PayloadKey";
        /// The value of an item, `[bytes]`.
        PayloadValue = cqlp_sys::CQLP_FIELD_PAYLOAD_VALUE, "PayloadValue";
        /// How many options come, a `[short]`: of STARTUP, section 4.1.1, or of SUPPORTED, section 4.2.4.
        Options = cqlp_sys::CQLP_FIELD_OPTIONS, "Options";
        /// The name of an option, a `[string]`.
        OptionKey = cqlp_sys::CQLP_FIELD_OPTION_KEY, "OptionKey";
        /// The value of an option, or one of its values, a `[string]`.
        OptionValue = cqlp_sys::CQLP_FIELD_OPTION_VALUE, "OptionValue";
        /// How many values an option of SUPPORTED has, a `[short]`.
        OptionValues = cqlp_sys::CQLP_FIELD_OPTION_VALUES, "OptionValues";
        /// The text of a query, a `[long string]`. Sections 4.1.4, 4.1.5 and 4.1.7.
        Query = cqlp_sys::CQLP_FIELD_QUERY, "Query";
        /// The id of a prepared statement, `[short bytes]`. Sections 4.1.6, 4.1.7, 4.2.5.4 and 9.
        StatementId = cqlp_sys::CQLP_FIELD_STATEMENT_ID, "StatementId";
        /// How many types of events are asked for, a `[short]`. Section 4.1.8.
        EventTypes = cqlp_sys::CQLP_FIELD_EVENT_TYPES, "EventTypes";
        /// A type of events, a `[string]`: one that is asked for, or that of an EVENT. Sections 4.1.8 and 4.2.6.
        EventType = cqlp_sys::CQLP_FIELD_EVENT_TYPE, "EventType";
        /// What either side says to authenticate, `[bytes]`. Sections 4.1.2, 4.2.7 and 4.2.8.
        Token = cqlp_sys::CQLP_FIELD_TOKEN, "Token";
        /// The kind of a batch, a `[byte]`: 0 logged, 1 unlogged, 2 of counters. Section 4.1.7.
        BatchType = cqlp_sys::CQLP_FIELD_BATCH_TYPE, "BatchType";
        /// How many statements a batch has, a `[short]`.
        Entries = cqlp_sys::CQLP_FIELD_ENTRIES, "Entries";
        /// Whether a statement of a batch comes as a text, 0, or by the id of a prepared one, 1: a `[byte]`.
        EntryKind = cqlp_sys::CQLP_FIELD_ENTRY_KIND, "EntryKind";
        /// A level of consistency, a `[short]`. Section 3.
        Consistency = cqlp_sys::CQLP_FIELD_CONSISTENCY, "Consistency";
        /// What a batch has after its consistency, a `[byte]`: 10 a serial consistency, 20 a timestamp.
        BatchFlags = cqlp_sys::CQLP_FIELD_BATCH_FLAGS, "BatchFlags";
        /// The level of consistency of the serial phase, a `[short]`.
        SerialConsistency = cqlp_sys::CQLP_FIELD_SERIAL_CONSISTENCY, "SerialConsistency";
        /// The time that the statements have by default, in microseconds from 1970, a `[long]`.
        Timestamp = cqlp_sys::CQLP_FIELD_TIMESTAMP, "Timestamp";
        /// What a query has after its consistency, a `[byte]`. Section 4.1.4.
        QueryFlags = cqlp_sys::CQLP_FIELD_QUERY_FLAGS, "QueryFlags";
        /// How many values are bound, a `[short]`.
        Values = cqlp_sys::CQLP_FIELD_VALUES, "Values";
        /// The name of a bound value, a `[string]`.
        ValueName = cqlp_sys::CQLP_FIELD_VALUE_NAME, "ValueName";
        /// A bound value, a `[value]`.
        Value = cqlp_sys::CQLP_FIELD_VALUE, "Value";
        /// How many rows a page of the result is to have, an `[int]`.
        PageSize = cqlp_sys::CQLP_FIELD_PAGE_SIZE, "PageSize";
        /// Where the result goes on, `[bytes]`. Sections 4.1.4 and 4.2.5.2.
        PagingState = cqlp_sys::CQLP_FIELD_PAGING_STATE, "PagingState";
        /// The name of a class, a `[string]`: of an authenticator, section 4.2.3, or of a custom type, section 4.2.5.2.
        Class = cqlp_sys::CQLP_FIELD_CLASS, "Class";
        /// What an ERROR is of, an `[int]`. Section 9.
        ErrorCode = cqlp_sys::CQLP_FIELD_ERROR_CODE, "ErrorCode";
        /// What an ERROR says, a `[string]`. Section 4.2.1.
        Message = cqlp_sys::CQLP_FIELD_MESSAGE, "Message";
        /// How many replicas had to be alive, an `[int]`. Section 9.
        Required = cqlp_sys::CQLP_FIELD_REQUIRED, "Required";
        /// How many replicas were alive, an `[int]`. Section 9.
        Alive = cqlp_sys::CQLP_FIELD_ALIVE, "Alive";
        /// How many replicas answered, an `[int]`. Section 9.
        Received = cqlp_sys::CQLP_FIELD_RECEIVED, "Received";
        /// How many replicas had to answer, an `[int]`. Section 9.
        BlockFor = cqlp_sys::CQLP_FIELD_BLOCK_FOR, "BlockFor";
        /// What kind of write it was, a `[string]`. Section 9.
        WriteType = cqlp_sys::CQLP_FIELD_WRITE_TYPE, "WriteType";
        /// Whether the replica that was asked for data answered, a `[byte]`, 0 where it did not. Section 9.
        DataPresent = cqlp_sys::CQLP_FIELD_DATA_PRESENT, "DataPresent";
        /// How many replicas failed, an `[int]`. Section 9.
        Failures = cqlp_sys::CQLP_FIELD_FAILURES, "Failures";
        /// The name of a keyspace, a `[string]`.
        Keyspace = cqlp_sys::CQLP_FIELD_KEYSPACE, "Keyspace";
        /// The name of a table, a type, a function or an aggregate, a `[string]`. Sections 4.2.5.5 and 9.
        Name = cqlp_sys::CQLP_FIELD_NAME, "Name";
        /// How many arguments a function has, a `[short]`.
        Arguments = cqlp_sys::CQLP_FIELD_ARGUMENTS, "Arguments";
        /// The type of an argument, a `[string]`.
        Argument = cqlp_sys::CQLP_FIELD_ARGUMENT, "Argument";
        /// The name of a table, a `[string]`.
        Table = cqlp_sys::CQLP_FIELD_TABLE, "Table";
        /// What a RESULT is, an `[int]`: 1 nothing, 2 rows, 3 a keyspace, 4 a prepared statement, 5 a change of the schema. Section 4.2.5.
        ResultKind = cqlp_sys::CQLP_FIELD_RESULT_KIND, "ResultKind";
        /// How many rows come, an `[int]`. Section 4.2.5.2.
        Rows = cqlp_sys::CQLP_FIELD_ROWS, "Rows";
        /// What the metadata have, an `[int]`: 1 one table for all columns, 2 more pages, 4 no columns. Section 4.2.5.2.
        MetaFlags = cqlp_sys::CQLP_FIELD_META_FLAGS, "MetaFlags";
        /// How many columns there are, an `[int]`.
        Columns = cqlp_sys::CQLP_FIELD_COLUMNS, "Columns";
        /// How many of the bound values make the partition key, an `[int]`. Section 4.2.5.4.
        Keys = cqlp_sys::CQLP_FIELD_KEYS, "Keys";
        /// The place of one of them among the bound values, a `[short]`.
        KeyIndex = cqlp_sys::CQLP_FIELD_KEY_INDEX, "KeyIndex";
        /// The name of a column, a `[string]`.
        ColumnName = cqlp_sys::CQLP_FIELD_COLUMN_NAME, "ColumnName";
        /// What was done, a `[string]`. Sections 4.2.5.5 and 4.2.6.
        Change = cqlp_sys::CQLP_FIELD_CHANGE, "Change";
        /// What a change of the schema was done to, a `[string]`. Section 4.2.5.5.
        Target = cqlp_sys::CQLP_FIELD_TARGET, "Target";
        /// The node that an event is about, an `[inet]`. Section 4.2.6.
        Address = cqlp_sys::CQLP_FIELD_ADDRESS, "Address";
        /// The name of a user defined type, a `[string]`. Section 4.2.5.2.
        TypeName = cqlp_sys::CQLP_FIELD_TYPE_NAME, "TypeName";
        /// How many fields a user defined type or a tuple has, a `[short]`.
        Fields = cqlp_sys::CQLP_FIELD_FIELDS, "Fields";
        /// The name of a field of a user defined type, a `[string]`.
        FieldName = cqlp_sys::CQLP_FIELD_FIELD_NAME, "FieldName";
    }
}

numbers! {
    /// The kind of a type: the id of its type option, section 4.2.5.2.
    Kind: u8 {
        /// The type `custom`.
        Custom = cqlp_sys::CQLP_KIND_CUSTOM, "custom";
        /// The type `ascii`.
        Ascii = cqlp_sys::CQLP_KIND_ASCII, "ascii";
        /// The type `bigint`.
        Bigint = cqlp_sys::CQLP_KIND_BIGINT, "bigint";
        /// The type `blob`.
        Blob = cqlp_sys::CQLP_KIND_BLOB, "blob";
        /// The type `boolean`.
        Boolean = cqlp_sys::CQLP_KIND_BOOLEAN, "boolean";
        /// The type `counter`.
        Counter = cqlp_sys::CQLP_KIND_COUNTER, "counter";
        /// The type `decimal`.
        Decimal = cqlp_sys::CQLP_KIND_DECIMAL, "decimal";
        /// The type `double`.
        Double = cqlp_sys::CQLP_KIND_DOUBLE, "double";
        /// The type `float`.
        Float = cqlp_sys::CQLP_KIND_FLOAT, "float";
        /// The type `int`.
        Int = cqlp_sys::CQLP_KIND_INT, "int";
        /// The type `timestamp`.
        Timestamp = cqlp_sys::CQLP_KIND_TIMESTAMP, "timestamp";
        /// The type `uuid`.
        Uuid = cqlp_sys::CQLP_KIND_UUID, "uuid";
        /// The type `varchar`.
        Varchar = cqlp_sys::CQLP_KIND_VARCHAR, "varchar";
        /// The type `varint`.
        Varint = cqlp_sys::CQLP_KIND_VARINT, "varint";
        /// The type `timeuuid`.
        Timeuuid = cqlp_sys::CQLP_KIND_TIMEUUID, "timeuuid";
        /// The type `inet`.
        Inet = cqlp_sys::CQLP_KIND_INET, "inet";
        /// The type `date`.
        Date = cqlp_sys::CQLP_KIND_DATE, "date";
        /// The type `time`.
        Time = cqlp_sys::CQLP_KIND_TIME, "time";
        /// The type `smallint`.
        Smallint = cqlp_sys::CQLP_KIND_SMALLINT, "smallint";
        /// The type `tinyint`.
        Tinyint = cqlp_sys::CQLP_KIND_TINYINT, "tinyint";
        /// The type `list`.
        List = cqlp_sys::CQLP_KIND_LIST, "list";
        /// The type `map`.
        Map = cqlp_sys::CQLP_KIND_MAP, "map";
        /// The type `set`.
        Set = cqlp_sys::CQLP_KIND_SET, "set";
        /// The type `udt`.
        Udt = cqlp_sys::CQLP_KIND_UDT, "udt";
        /// The type `tuple`.
        Tuple = cqlp_sys::CQLP_KIND_TUPLE, "tuple";
        /// A cell whose type is not known.
        Raw = cqlp_sys::CQLP_KIND_RAW, "raw";
    }
}

numbers! {
    /// Why a stream is refused.
    Reason: u8 {
        /// The first byte of a header is neither 04 nor 84.
        BadVersion = cqlp_sys::CQLP_REASON_BAD_VERSION, "BadVersion";
        /// A header's flags announce compression.
        Compressed = cqlp_sys::CQLP_REASON_COMPRESSED, "Compressed";
        /// No opcode has this number.
        BadOpcode = cqlp_sys::CQLP_REASON_BAD_OPCODE, "BadOpcode";
        /// A request's opcode in a response, or the other way round.
        BadDirection = cqlp_sys::CQLP_REASON_BAD_DIRECTION, "BadDirection";
        /// A body's length that is negative or above 268,435,456.
        BadLength = cqlp_sys::CQLP_REASON_BAD_LENGTH, "BadLength";
        /// Past the end of the frame, or of the value around an element.
        Overrun = cqlp_sys::CQLP_REASON_OVERRUN, "Overrun";
        /// Past the caller's limit on a text or a cell.
        TooLong = cqlp_sys::CQLP_REASON_TOO_LONG, "TooLong";
        /// A text that is not UTF-8.
        BadUtf8 = cqlp_sys::CQLP_REASON_BAD_UTF8, "BadUtf8";
        /// The length of a `[value]` below -2.
        BadValueLength = cqlp_sys::CQLP_REASON_BAD_VALUE_LENGTH, "BadValueLength";
        /// The address of an `[inet]` has neither 4 nor 16 bytes.
        BadInet = cqlp_sys::CQLP_REASON_BAD_INET, "BadInet";
        /// A negative count, or a negative length of a text.
        BadCount = cqlp_sys::CQLP_REASON_BAD_COUNT, "BadCount";
        /// No type option has this id.
        BadType = cqlp_sys::CQLP_REASON_BAD_TYPE, "BadType";
        /// A type past the caller's limit on nesting.
        TooDeep = cqlp_sys::CQLP_REASON_TOO_DEEP, "TooDeep";
        /// More type options than the caller's limit.
        TooMany = cqlp_sys::CQLP_REASON_TOO_MANY, "TooMany";
        /// The kind of a batch's entry is neither 0 nor 1.
        BadBatchKind = cqlp_sys::CQLP_REASON_BAD_BATCH_KIND, "BadBatchKind";
        /// A batch's flags name values, or have a bit that only a query's have.
        BadBatchFlags = cqlp_sys::CQLP_REASON_BAD_BATCH_FLAGS, "BadBatchFlags";
        /// A cell's length that its type does not have.
        BadSize = cqlp_sys::CQLP_REASON_BAD_SIZE, "BadSize";
        /// A cell's content that its type does not have.
        BadScalar = cqlp_sys::CQLP_REASON_BAD_SCALAR, "BadScalar";
        /// Bytes of a value after its last item.
        ExtraInValue = cqlp_sys::CQLP_REASON_EXTRA_IN_VALUE, "ExtraInValue";
        /// A frame that would begin past offset 2^63.
        StreamTooLong = cqlp_sys::CQLP_REASON_STREAM_TOO_LONG, "StreamTooLong";
    }
}

/// The opcodes of section 2.4; include/cqlp.h leaves them to the standard.
mod opcodes {
    pub const ERROR: u8 = 0x00;
    pub const STARTUP: u8 = 0x01;
    pub const READY: u8 = 0x02;
    pub const AUTHENTICATE: u8 = 0x03;
    pub const OPTIONS: u8 = 0x05;
    pub const SUPPORTED: u8 = 0x06;
    pub const QUERY: u8 = 0x07;
    pub const RESULT: u8 = 0x08;
    pub const PREPARE: u8 = 0x09;
    pub const EXECUTE: u8 = 0x0A;
    pub const REGISTER: u8 = 0x0B;
    pub const EVENT: u8 = 0x0C;
    pub const BATCH: u8 = 0x0D;
    pub const AUTH_CHALLENGE: u8 = 0x0E;
    pub const AUTH_RESPONSE: u8 = 0x0F;
    pub const AUTH_SUCCESS: u8 = 0x10;
}

numbers! {
    /// The opcode of a frame. Section 2.4.
    Opcode: u8 {
        /// ERROR.
        Error = opcodes::ERROR, "ERROR";
        /// STARTUP.
        Startup = opcodes::STARTUP, "STARTUP";
        /// READY.
        Ready = opcodes::READY, "READY";
        /// AUTHENTICATE.
        Authenticate = opcodes::AUTHENTICATE, "AUTHENTICATE";
        /// OPTIONS.
        Options = opcodes::OPTIONS, "OPTIONS";
        /// SUPPORTED.
        Supported = opcodes::SUPPORTED, "SUPPORTED";
        /// QUERY.
        Query = opcodes::QUERY, "QUERY";
        /// RESULT.
        Result = opcodes::RESULT, "RESULT";
        /// PREPARE.
        Prepare = opcodes::PREPARE, "PREPARE";
        /// EXECUTE.
        Execute = opcodes::EXECUTE, "EXECUTE";
        /// REGISTER.
        Register = opcodes::REGISTER, "REGISTER";
        /// EVENT.
        Event = opcodes::EVENT, "EVENT";
        /// BATCH.
        Batch = opcodes::BATCH, "BATCH";
        /// AUTH_CHALLENGE.
        AuthChallenge = opcodes::AUTH_CHALLENGE, "AUTH_CHALLENGE";
        /// AUTH_RESPONSE.
        AuthResponse = opcodes::AUTH_RESPONSE, "AUTH_RESPONSE";
        /// AUTH_SUCCESS.
        AuthSuccess = opcodes::AUTH_SUCCESS, "AUTH_SUCCESS";
    }
}

numbers! {
    /// Why events were not written, as `include/cqlp.h` says of `cqlp_encode` and of the calls that write a page.
    Code: u32 {
        /// Memory was refused.
        NoMemory = cqlp_sys::CQLP_NO_MEMORY, "NoMemory";
        /// The body of a page is longer than 268,435,456 bytes.
        BadLength = cqlp_sys::CQLP_BAD_LENGTH, "BadLength";
        /// A type option is nested deeper than 64.
        TooDeep = cqlp_sys::CQLP_TOO_DEEP, "TooDeep";
        /// Nobody knows the event, its field, its kind or its opcode, or its number is out of its range.
        NoEvent = cqlp_sys::CQLP_NO_EVENT, "NoEvent";
        /// It is a frame's header and not the first event, or the other way round, or comes after the end; or there is no event.
        Misplaced = cqlp_sys::CQLP_MISPLACED, "Misplaced";
        /// It is a part of a scalar of a cell: a scalar is written whole.
        Unbuilt = cqlp_sys::CQLP_UNBUILT, "Unbuilt";
        /// There are more than 268,435,456 fields.
        TooManyFields = cqlp_sys::CQLP_TOO_MANY_FIELDS, "TooManyFields";
        /// The contents have more than 268,435,456 bytes.
        TooManyBytes = cqlp_sys::CQLP_TOO_MANY_BYTES, "TooManyBytes";
        /// One event is of another field than is due, or does not agree with what comes before it, or some are missing, or a text is too long.
        NoSuchFrame = cqlp_sys::CQLP_NO_SUCH_FRAME, "NoSuchFrame";
        /// The handle has no page.
        NoPage = cqlp_sys::CQLP_NO_PAGE, "NoPage";
        /// The last event of a head is no count of rows.
        NoRows = cqlp_sys::CQLP_NO_ROWS, "NoRows";
        /// The head is that of another frame than a page.
        NotPage = cqlp_sys::CQLP_NOT_PAGE, "NotPage";
        /// There are more than 2147483647 rows.
        TooManyRows = cqlp_sys::CQLP_TOO_MANY_ROWS, "TooManyRows";
        /// No cells of as many rows and columns have this many bytes.
        BadSize = cqlp_sys::CQLP_BAD_SIZE, "BadSize";
        /// The cells would have more bytes than were said.
        PastSize = cqlp_sys::CQLP_PAST_SIZE, "PastSize";
        /// The last cell has begun and not ended.
        NotEnded = cqlp_sys::CQLP_NOT_ENDED, "NotEnded";
        /// The type of a column is the type of no cell.
        NoType = cqlp_sys::CQLP_NO_TYPE, "NoType";
        /// No value of the column's type has these events.
        NoValue = cqlp_sys::CQLP_NO_VALUE, "NoValue";
        /// There are fewer cells than rows times columns.
        CellsMissing = cqlp_sys::CQLP_CELLS_MISSING, "CellsMissing";
        /// The cells have fewer bytes than were said.
        BytesMissing = cqlp_sys::CQLP_BYTES_MISSING, "BytesMissing";
        /// There are more columns than the limits say.
        TooManyColumns = cqlp_sys::CQLP_TOO_MANY_COLUMNS, "TooManyColumns";
        /// No kind has this number.
        BadKind = cqlp_sys::CQLP_BAD_KIND, "BadKind";
        /// Values of the kind have items.
        Unsupported = cqlp_sys::CQLP_UNSUPPORTED, "Unsupported";
        /// The handle has no columns.
        NoColumns = cqlp_sys::CQLP_NO_COLUMNS, "NoColumns";
        /// There is no column of this number.
        NoColumn = cqlp_sys::CQLP_NO_COLUMN, "NoColumn";
        /// This crate was compiled for other layouts of structs than the library has.
        OtherLayout = cqlp_sys::CQLP_OTHER_LAYOUT, "OtherLayout";
    }
}
