//! The interface of libcqlp, as `include/cqlp.h` has it, and what it asks of a caller holds here too. The crate `cqlp` has a safe decoder
//! and a safe encoder over it.
#![deny(missing_docs)]
#![allow(non_camel_case_types)]

use std::ffi::c_void;
use std::mem::{offset_of, size_of};

/// The call did what it says.
pub const CQLP_DONE: u32 = 0;
/// `text` is not from 32 to 16777216.
pub const CQLP_BAD_TEXT: u32 = 1;
/// `cell` is not from 32 to 16777216.
pub const CQLP_BAD_CELL: u32 = 2;
/// `entries` is not from 1 to 65536.
pub const CQLP_BAD_ENTRIES: u32 = 3;
/// `depth` is not from 1 to 64.
pub const CQLP_BAD_DEPTH: u32 = 4;
/// Malloc gave none.
pub const CQLP_NO_MEMORY: u32 = 5;
/// The handle has no decoder.
pub const CQLP_NO_DECODER: u32 = 6;
/// The handle has a decoder already.
pub const CQLP_IN_USE: u32 = 7;
/// The body is longer than 268435456 bytes.
pub const CQLP_BAD_LENGTH: u32 = 22;
/// There are more bytes than there is room for.
pub const CQLP_NO_ROOM: u32 = 27;
/// Types are nested deeper than 64, of a frame that is written.
pub const CQLP_TOO_DEEP: u32 = 34;
/// No event is like this one.
pub const CQLP_NO_EVENT: u32 = 38;
/// An event of another place.
pub const CQLP_MISPLACED: u32 = 39;
/// A part of a scalar of a cell.
pub const CQLP_UNBUILT: u32 = 40;
/// There are more than 268435456 fields.
pub const CQLP_TOO_MANY_FIELDS: u32 = 41;
/// The contents have more than 268435456 bytes.
pub const CQLP_TOO_MANY_BYTES: u32 = 42;
/// There are bytes after the contents of the events.
pub const CQLP_LEFT_OVER: u32 = 43;
/// No frame has these events.
pub const CQLP_NO_SUCH_FRAME: u32 = 44;
/// The handle has no page.
pub const CQLP_NO_PAGE: u32 = 45;
/// The last event of a head is no count of rows.
pub const CQLP_NO_ROWS: u32 = 46;
/// The head is that of another frame than a page.
pub const CQLP_NOT_PAGE: u32 = 47;
/// There are more than 2147483647 rows.
pub const CQLP_TOO_MANY_ROWS: u32 = 48;
/// No cells of as many rows and columns have this many bytes.
pub const CQLP_BAD_SIZE: u32 = 49;
/// The cells would have more bytes than were said.
pub const CQLP_PAST_SIZE: u32 = 50;
/// The last cell has begun and not ended.
pub const CQLP_NOT_ENDED: u32 = 51;
/// The type of a column is the type of no cell.
pub const CQLP_NO_TYPE: u32 = 52;
/// No value of the column's type has these events.
pub const CQLP_NO_VALUE: u32 = 53;
/// There are fewer cells than rows times columns.
pub const CQLP_CELLS_MISSING: u32 = 54;
/// The cells have fewer bytes than were said.
pub const CQLP_BYTES_MISSING: u32 = 55;
/// There are more columns than the limits say.
pub const CQLP_TOO_MANY_COLUMNS: u32 = 60;
/// No kind has this number.
pub const CQLP_BAD_KIND: u32 = 61;
/// Values of the kind have items.
pub const CQLP_UNSUPPORTED: u32 = 62;
/// The handle has no columns.
pub const CQLP_NO_COLUMNS: u32 = 63;
/// There is no column of this number.
pub const CQLP_NO_COLUMN: u32 = 64;
/// The caller was compiled for structs that lie otherwise than the library's.
pub const CQLP_OTHER_LAYOUT: u32 = 65;

/// The number of the layout of the structs below, which is passed to the library.
pub const CQLP_LAYOUT: u32 = 0xCF31_19DD;

/// All of the input was used, and more is wanted.
pub const CQLP_STOP_MORE: u8 = 0;
/// Call again with the rest of the input; `events` is over 0 where `room` is.
pub const CQLP_STOP_FULL: u8 = 1;
/// The stream is refused, here and at every later call.
pub const CQLP_STOP_REFUSED: u8 = 2;

/// At a frame's end; bytes: how many were used.
pub const CQLP_END_WHOLE: u8 = 0;
/// Within the frame that begins at `at`; bytes: how many were used.
pub const CQLP_END_CUT: u8 = 1;
/// At the offset `at`, for `reason`.
pub const CQLP_END_REFUSED: u8 = 2;

/// An event Frame: number: the bytes of the body; extra: the stream id; opcode, flags; mark RESPONSE or NONE.
pub const CQLP_TAG_FRAME: u8 = 1;
/// An event Byte: field; number.
pub const CQLP_TAG_BYTE: u8 = 2;
/// An event Short: field; number.
pub const CQLP_TAG_SHORT: u8 = 3;
/// An event Int: field; number.
pub const CQLP_TAG_INT: u8 = 4;
/// An event Long: field; number.
pub const CQLP_TAG_LONG: u8 = 5;
/// An event Uuid: field; bytes.
pub const CQLP_TAG_UUID: u8 = 6;
/// An event Count: field; number: how many items follow.
pub const CQLP_TAG_COUNT: u8 = 7;
/// An event Text: field; content in UTF-8.
pub const CQLP_TAG_TEXT: u8 = 8;
/// An event Bytes: field; content, or mark NULL.
pub const CQLP_TAG_BYTES: u8 = 9;
/// An event Bound: field; content, or mark NULL or UNSET.
pub const CQLP_TAG_BOUND: u8 = 10;
/// An event Inet: field; bytes: the address, 4 or 16 octets; extra: the port.
pub const CQLP_TAG_INET: u8 = 11;
/// An event TypeNode: kind of a type option; its parameters follow.
pub const CQLP_TAG_TYPE_NODE: u8 = 12;
/// An event Leaf: a scalar: row, column, level, kind, and what the kind says below.
pub const CQLP_TAG_LEAF: u8 = 13;
/// An event Null: a value of a negative length: row, column, level.
pub const CQLP_TAG_NULL: u8 = 14;
/// An event Empty: a value of no bytes: row, column, level.
pub const CQLP_TAG_EMPTY: u8 = 15;
/// An event Enter: a value with items begins: row, column, level, kind; number: how many.
pub const CQLP_TAG_ENTER: u8 = 16;
/// An event Leave: such a value ends: level; number: how many items it had.
pub const CQLP_TAG_LEAVE: u8 = 17;
/// An event Part: a part of a long scalar: row, column, level; number: its offset; content; mark LAST or NONE.
pub const CQLP_TAG_PART: u8 = 18;
/// An event End: the frame ends; number: bytes after its last field.
pub const CQLP_TAG_END: u8 = 19;

/// No mark.
pub const CQLP_MARK_NONE: u8 = 0;
/// The frame is a response.
pub const CQLP_MARK_RESPONSE: u8 = 1;
/// Null, not bytes.
pub const CQLP_MARK_NULL: u8 = 2;
/// Not set, not bytes.
pub const CQLP_MARK_UNSET: u8 = 3;
/// The last part.
pub const CQLP_MARK_LAST: u8 = 4;

/// The id of the tracing session, a `[uuid]`, where the header has the flag 02. Section 2.2.
pub const CQLP_FIELD_TRACE_ID: u8 = 1;
/// How many warnings come, a `[short]`, where the header has the flag 08. Section 2.2.
pub const CQLP_FIELD_WARNINGS: u8 = 2;
/// One of them, a `[string]`.
pub const CQLP_FIELD_WARNING: u8 = 3;
/// How many items the custom payload has, a `[short]`, where the header has the flag 04. Section 2.2.
pub const CQLP_FIELD_PAYLOAD_ITEMS: u8 = 4;
/// The key of an item, a `[string]`.
pub const CQLP_FIELD_PAYLOAD_KEY: u8 = 5;
/// The value of an item, `[bytes]`.
pub const CQLP_FIELD_PAYLOAD_VALUE: u8 = 6;
/// How many options come, a `[short]`: of STARTUP, section 4.1.1, or of SUPPORTED, section 4.2.4.
pub const CQLP_FIELD_OPTIONS: u8 = 7;
/// The name of an option, a `[string]`.
pub const CQLP_FIELD_OPTION_KEY: u8 = 8;
/// The value of an option, or one of its values, a `[string]`.
pub const CQLP_FIELD_OPTION_VALUE: u8 = 9;
/// How many values an option of SUPPORTED has, a `[short]`.
pub const CQLP_FIELD_OPTION_VALUES: u8 = 10;
/// The text of a query, a `[long string]`. Sections 4.1.4, 4.1.5 and 4.1.7.
pub const CQLP_FIELD_QUERY: u8 = 11;
/// The id of a prepared statement, `[short bytes]`. Sections 4.1.6, 4.1.7, 4.2.5.4 and 9.
pub const CQLP_FIELD_STATEMENT_ID: u8 = 12;
/// How many types of events are asked for, a `[short]`. Section 4.1.8.
pub const CQLP_FIELD_EVENT_TYPES: u8 = 13;
/// A type of events, a `[string]`: one that is asked for, or that of an EVENT. Sections 4.1.8 and 4.2.6.
pub const CQLP_FIELD_EVENT_TYPE: u8 = 14;
/// What either side says to authenticate, `[bytes]`. Sections 4.1.2, 4.2.7 and 4.2.8.
pub const CQLP_FIELD_TOKEN: u8 = 15;
/// The kind of a batch, a `[byte]`: 0 logged, 1 unlogged, 2 of counters. Section 4.1.7.
pub const CQLP_FIELD_BATCH_TYPE: u8 = 16;
/// How many statements a batch has, a `[short]`.
pub const CQLP_FIELD_ENTRIES: u8 = 17;
/// Whether a statement of a batch comes as a text, 0, or by the id of a prepared one, 1: a `[byte]`.
pub const CQLP_FIELD_ENTRY_KIND: u8 = 18;
/// A level of consistency, a `[short]`. Section 3.
pub const CQLP_FIELD_CONSISTENCY: u8 = 19;
/// What a batch has after its consistency, a `[byte]`: 10 a serial consistency, 20 a timestamp.
pub const CQLP_FIELD_BATCH_FLAGS: u8 = 20;
/// The level of consistency of the serial phase, a `[short]`.
pub const CQLP_FIELD_SERIAL_CONSISTENCY: u8 = 21;
/// The time that the statements have by default, in microseconds from 1970, a `[long]`.
pub const CQLP_FIELD_TIMESTAMP: u8 = 22;
/// What a query has after its consistency, a `[byte]`. Section 4.1.4.
pub const CQLP_FIELD_QUERY_FLAGS: u8 = 23;
/// How many values are bound, a `[short]`.
pub const CQLP_FIELD_VALUES: u8 = 24;
/// The name of a bound value, a `[string]`.
pub const CQLP_FIELD_VALUE_NAME: u8 = 25;
/// A bound value, a `[value]`.
pub const CQLP_FIELD_VALUE: u8 = 26;
/// How many rows a page of the result is to have, an `[int]`.
pub const CQLP_FIELD_PAGE_SIZE: u8 = 27;
/// Where the result goes on, `[bytes]`. Sections 4.1.4 and 4.2.5.2.
pub const CQLP_FIELD_PAGING_STATE: u8 = 28;
/// The name of a class, a `[string]`: of an authenticator, section 4.2.3, or of a custom type, section 4.2.5.2.
pub const CQLP_FIELD_CLASS: u8 = 29;
/// What an ERROR is of, an `[int]`. Section 9.
pub const CQLP_FIELD_ERROR_CODE: u8 = 30;
/// What an ERROR says, a `[string]`. Section 4.2.1.
pub const CQLP_FIELD_MESSAGE: u8 = 31;
/// How many replicas had to be alive, an `[int]`. Section 9.
pub const CQLP_FIELD_REQUIRED: u8 = 32;
/// How many replicas were alive, an `[int]`. Section 9.
pub const CQLP_FIELD_ALIVE: u8 = 33;
/// How many replicas answered, an `[int]`. Section 9.
pub const CQLP_FIELD_RECEIVED: u8 = 34;
/// How many replicas had to answer, an `[int]`. Section 9.
pub const CQLP_FIELD_BLOCK_FOR: u8 = 35;
/// What kind of write it was, a `[string]`. Section 9.
pub const CQLP_FIELD_WRITE_TYPE: u8 = 36;
/// Whether the replica that was asked for data answered, a `[byte]`, 0 where it did not. Section 9.
pub const CQLP_FIELD_DATA_PRESENT: u8 = 37;
/// How many replicas failed, an `[int]`. Section 9.
pub const CQLP_FIELD_FAILURES: u8 = 38;
/// The name of a keyspace, a `[string]`.
pub const CQLP_FIELD_KEYSPACE: u8 = 39;
/// The name of a table, a type, a function or an aggregate, a `[string]`. Sections 4.2.5.5 and 9.
pub const CQLP_FIELD_NAME: u8 = 40;
/// How many arguments a function has, a `[short]`.
pub const CQLP_FIELD_ARGUMENTS: u8 = 41;
/// The type of an argument, a `[string]`.
pub const CQLP_FIELD_ARGUMENT: u8 = 42;
/// The name of a table, a `[string]`.
pub const CQLP_FIELD_TABLE: u8 = 43;
/// What a RESULT is, an `[int]`: 1 nothing, 2 rows, 3 a keyspace, 4 a prepared statement, 5 a change of the schema. Section 4.2.5.
pub const CQLP_FIELD_RESULT_KIND: u8 = 44;
/// How many rows come, an `[int]`. Section 4.2.5.2.
pub const CQLP_FIELD_ROWS: u8 = 45;
/// What the metadata have, an `[int]`: 1 one table for all columns, 2 more pages, 4 no columns. Section 4.2.5.2.
pub const CQLP_FIELD_META_FLAGS: u8 = 46;
/// How many columns there are, an `[int]`.
pub const CQLP_FIELD_COLUMNS: u8 = 47;
/// How many of the bound values make the partition key, an `[int]`. Section 4.2.5.4.
pub const CQLP_FIELD_KEYS: u8 = 48;
/// The place of one of them among the bound values, a `[short]`.
pub const CQLP_FIELD_KEY_INDEX: u8 = 49;
/// The name of a column, a `[string]`.
pub const CQLP_FIELD_COLUMN_NAME: u8 = 50;
/// What was done, a `[string]`. Sections 4.2.5.5 and 4.2.6.
pub const CQLP_FIELD_CHANGE: u8 = 51;
/// What a change of the schema was done to, a `[string]`. Section 4.2.5.5.
pub const CQLP_FIELD_TARGET: u8 = 52;
/// The node that an event is about, an `[inet]`. Section 4.2.6.
pub const CQLP_FIELD_ADDRESS: u8 = 53;
/// The name of a user defined type, a `[string]`. Section 4.2.5.2.
pub const CQLP_FIELD_TYPE_NAME: u8 = 54;
/// How many fields a user defined type or a tuple has, a `[short]`.
pub const CQLP_FIELD_FIELDS: u8 = 55;
/// The name of a field of a user defined type, a `[string]`.
pub const CQLP_FIELD_FIELD_NAME: u8 = 56;

/// The type custom: content.
pub const CQLP_KIND_CUSTOM: u8 = 0x00;
/// The type ascii: content.
pub const CQLP_KIND_ASCII: u8 = 0x01;
/// The type bigint: number.
pub const CQLP_KIND_BIGINT: u8 = 0x02;
/// The type blob: content.
pub const CQLP_KIND_BLOB: u8 = 0x03;
/// The type boolean: number: 0 or 1.
pub const CQLP_KIND_BOOLEAN: u8 = 0x04;
/// The type counter: number.
pub const CQLP_KIND_COUNTER: u8 = 0x05;
/// The type decimal: extra: the scale; content: the unscaled number, in two's complement.
pub const CQLP_KIND_DECIMAL: u8 = 0x06;
/// The type double: bytes: 8 of a binary64, the highest first.
pub const CQLP_KIND_DOUBLE: u8 = 0x07;
/// The type float: bytes: 4 of a binary32, the highest first.
pub const CQLP_KIND_FLOAT: u8 = 0x08;
/// The type int: number.
pub const CQLP_KIND_INT: u8 = 0x09;
/// The type timestamp: number: milliseconds from 1970.
pub const CQLP_KIND_TIMESTAMP: u8 = 0x0B;
/// The type uuid: bytes: 16.
pub const CQLP_KIND_UUID: u8 = 0x0C;
/// The type varchar: content in UTF-8.
pub const CQLP_KIND_VARCHAR: u8 = 0x0D;
/// The type varint: content, in two's complement.
pub const CQLP_KIND_VARINT: u8 = 0x0E;
/// The type timeuuid: bytes: 16.
pub const CQLP_KIND_TIMEUUID: u8 = 0x0F;
/// The type inet: bytes: 4 or 16.
pub const CQLP_KIND_INET: u8 = 0x10;
/// The type date: number: days, 2^31 is the first of January 1970.
pub const CQLP_KIND_DATE: u8 = 0x11;
/// The type time: number: nanoseconds since midnight.
pub const CQLP_KIND_TIME: u8 = 0x12;
/// The type smallint: number.
pub const CQLP_KIND_SMALLINT: u8 = 0x13;
/// The type tinyint: number.
pub const CQLP_KIND_TINYINT: u8 = 0x14;
/// The type list: of items.
pub const CQLP_KIND_LIST: u8 = 0x20;
/// The type map: of pairs.
pub const CQLP_KIND_MAP: u8 = 0x21;
/// The type set: of items.
pub const CQLP_KIND_SET: u8 = 0x22;
/// The type udt: of fields.
pub const CQLP_KIND_UDT: u8 = 0x30;
/// The type tuple: of fields.
pub const CQLP_KIND_TUPLE: u8 = 0x31;
/// The type raw: content of a cell whose type is not known.
pub const CQLP_KIND_RAW: u8 = 0xFF;

/// The first byte of a header is neither 04 nor 84.
pub const CQLP_REASON_BAD_VERSION: u8 = 1;
/// A header's flags announce compression.
pub const CQLP_REASON_COMPRESSED: u8 = 2;
/// No opcode has this number.
pub const CQLP_REASON_BAD_OPCODE: u8 = 3;
/// A request's opcode in a response, or the other way round.
pub const CQLP_REASON_BAD_DIRECTION: u8 = 4;
/// A body's length that is negative or above 268,435,456.
pub const CQLP_REASON_BAD_LENGTH: u8 = 5;
/// Past the end of the frame, or of the value around an element.
pub const CQLP_REASON_OVERRUN: u8 = 6;
/// Past the caller's limit on a text or a cell.
pub const CQLP_REASON_TOO_LONG: u8 = 7;
/// A text that is not UTF-8.
pub const CQLP_REASON_BAD_UTF8: u8 = 8;
/// The length of a `[value]` below -2.
pub const CQLP_REASON_BAD_VALUE_LENGTH: u8 = 9;
/// The address of an `[inet]` has neither 4 nor 16 bytes.
pub const CQLP_REASON_BAD_INET: u8 = 10;
/// A negative count, or a negative length of a text.
pub const CQLP_REASON_BAD_COUNT: u8 = 11;
/// No type option has this id.
pub const CQLP_REASON_BAD_TYPE: u8 = 12;
/// A type past the caller's limit on nesting.
pub const CQLP_REASON_TOO_DEEP: u8 = 13;
/// More type options than the caller's limit.
pub const CQLP_REASON_TOO_MANY: u8 = 14;
/// The kind of a batch's entry is neither 0 nor 1.
pub const CQLP_REASON_BAD_BATCH_KIND: u8 = 15;
/// A batch's flags name values, or have a bit that only a query's have.
pub const CQLP_REASON_BAD_BATCH_FLAGS: u8 = 16;
/// A cell's length that its type does not have.
pub const CQLP_REASON_BAD_SIZE: u8 = 17;
/// A cell's content that its type does not have.
pub const CQLP_REASON_BAD_SCALAR: u8 = 18;
/// Bytes of a value after its last item.
pub const CQLP_REASON_EXTRA_IN_VALUE: u8 = 19;
/// A frame that would begin past offset 2^63.
pub const CQLP_REASON_STREAM_TOO_LONG: u8 = 20;

/// What a decoder holds at most, and what it reads.
#[repr(C)]
#[derive(Clone, Copy, Debug)]
pub struct cqlp_limits {
    /// The bytes of one `[string]` or `[long string]`: 32 to 16777216.
    pub text: u32,
    /// The bytes of one `[bytes]`, `[short bytes]`, `[value]` or scalar cell: 32 to 16777216.
    pub cell: u32,
    /// The type options of one metadata, nested ones counted: 1 to 65536.
    pub entries: u32,
    /// The nesting of one type, a column's own option having depth 1: 1 to 64.
    pub depth: u32,
    /// 0: cells are not read by the types of their columns, and each is a raw scalar.
    pub types: u8,
    /// Not 0: a blob, custom or raw scalar longer than `cell` comes in parts of that size.
    pub parts: u8,
}

/// A decoder, or none. The members are the library's own.
#[repr(C)]
#[derive(Debug)]
pub struct cqlp_decoder {
    /// The library's own.
    pub live: u64,
    /// The library's own.
    pub place: *mut c_void,
    /// The library's own.
    pub course: [u64; 6],
}

impl cqlp_decoder {
    /// A handle that has no decoder: `CQLP_NO_DECODER_YET`.
    pub const NONE: cqlp_decoder = cqlp_decoder {
        live: 0,
        place: std::ptr::null_mut(),
        course: [0; 6],
    };
}

/// An event. What its tag has no use for is 0.
#[repr(C)]
#[derive(Clone, Copy, Debug)]
pub struct cqlp_event {
    /// The offset in the stream of the event's field; an end's is the frame's end.
    pub at: u64,
    /// The content, lent until the next call on the handle; null where the event has none.
    pub content: *const u8,
    /// How many bytes the content has.
    pub length: usize,
    /// A value, a count, how many items, an offset, or how many bytes.
    pub number: i64,
    /// The row, from 0.
    pub row: u32,
    /// The column, from 0.
    pub column: u32,
    /// The number of values around a value.
    pub level: u32,
    /// A stream id, a port, or a scale.
    pub extra: i32,
    /// A uuid, an address or a binary number, in the order of the stream, and zeros after it.
    pub bytes: [u8; 16],
    /// `CQLP_TAG_..`
    pub tag: u8,
    /// `CQLP_FIELD_..`
    pub field: u8,
    /// `CQLP_KIND_..`
    pub kind: u8,
    /// Of a frame: section 2.4.
    pub opcode: u8,
    /// Of a frame: section 2.2.
    pub flags: u8,
    /// `CQLP_MARK_..`
    pub mark: u8,
    /// How many of `bytes` are the event's: 4, 8 or 16.
    pub octets: u8,
}

impl cqlp_event {
    /// An event that was not put.
    pub const BLANK: cqlp_event = cqlp_event {
        at: 0,
        content: std::ptr::null(),
        length: 0,
        number: 0,
        row: 0,
        column: 0,
        level: 0,
        extra: 0,
        bytes: [0; 16],
        tag: 0,
        field: 0,
        kind: 0,
        opcode: 0,
        flags: 0,
        mark: 0,
        octets: 0,
    };
}

/// What one call of [`cqlp_next`] made of the input.
#[repr(C)]
#[derive(Clone, Copy, Debug, Default)]
pub struct cqlp_batch {
    /// How many bytes of the input were used.
    pub used: usize,
    /// How many events are in the array.
    pub events: usize,
    /// Where the stream is refused: the offset of the first byte of the field that could not be made.
    pub at: u64,
    /// `CQLP_STOP_..`
    pub stop: u8,
    /// Where the stream is refused: `CQLP_REASON_..`
    pub reason: u8,
}

/// Columns for a page's rows, or none. The members are the library's own.
#[repr(C)]
#[derive(Debug)]
pub struct cqlp_columns {
    /// The library's own.
    pub live: u64,
    /// The library's own.
    pub place: *mut c_void,
}

impl cqlp_columns {
    /// A handle that has no columns: `CQLP_NO_COLUMNS_YET`.
    pub const NONE: cqlp_columns = cqlp_columns {
        live: 0,
        place: std::ptr::null_mut(),
    };
}

/// How large a batch of rows may be.
#[repr(C)]
#[derive(Clone, Copy, Debug, Default)]
pub struct cqlp_batch_limits {
    /// How many columns.
    pub columns: u32,
    /// How many rows.
    pub rows: u32,
    /// With how many bytes of values in a column no further row begins; those of its last row come on top of it.
    pub bytes: u32,
    /// How many bytes one value may have.
    pub content: u32,
}

/// The arrays of a column, in the layout of Apache Arrow. A bit of an array of bits is the least of its byte first.
#[repr(C)]
#[derive(Clone, Copy, Debug)]
pub struct cqlp_column {
    /// The values, one after the other, zeros where a cell has none: numbers with their lowest byte first; of booleans a bit each.
    pub values: *const u8,
    /// Where each value begins among these bytes, and where the last one ends.
    pub offsets: *const u64,
    /// A bit for each cell: whether it has a value.
    pub validity: *const u8,
    /// A bit for each cell: whether it has a value of no bytes, which among values of a fixed length has no other place.
    pub empties: *const u8,
    /// How many bytes of values there are.
    pub size: usize,
    /// How many offsets there are: one more than cells, or 0 where all values have the same length.
    pub bounds: usize,
    /// How many cells there are; where a row is under way the first columns have one more than the last.
    pub cells: usize,
    /// Of which kind they are: `CQLP_KIND_..`
    pub kind: u8,
}

impl cqlp_column {
    /// A column that the library has not filled in.
    pub const BLANK: cqlp_column = cqlp_column {
        values: std::ptr::null(),
        offsets: std::ptr::null(),
        validity: std::ptr::null(),
        empties: std::ptr::null(),
        size: 0,
        bounds: 0,
        cells: 0,
        kind: CQLP_KIND_RAW,
    };
}

/// How a stream ends.
#[repr(C)]
#[derive(Clone, Copy, Debug, Default)]
pub struct cqlp_end {
    /// Where it is cut: the offset of the frame; where it is refused: that of the field.
    pub at: u64,
    /// How many bytes were used; 0 where it is refused.
    pub bytes: u64,
    /// `CQLP_END_..`
    pub verdict: u8,
    /// Where it is refused: `CQLP_REASON_..`
    pub reason: u8,
}

/// What a decoder holds of the stream.
#[repr(C)]
#[derive(Clone, Copy, Debug, Default)]
pub struct cqlp_holding {
    /// Of a content that came in pieces: no more than the greater of `text` and `cell`.
    pub bytes: u32,
    /// The type options of the metadata begun last: no more than `entries`.
    pub entries: u32,
    /// The types or values around the one that is read: no more than `depth`.
    pub levels: u32,
}

/// What [`cqlp_encode`] made of events.
#[repr(C)]
#[derive(Clone, Copy, Debug, Default)]
pub struct cqlp_encoded {
    /// How many bytes the frame has, 9 to 268435465; 0 where there is no frame.
    pub length: usize,
    /// Which event is refused, from 0; how many there are where it is none of them, or where all are taken.
    pub event: usize,
}

/// How many bytes the cells of a page have.
#[repr(C)]
#[derive(Clone, Copy, Debug, Default)]
pub struct cqlp_measured {
    /// Those of the events so far.
    pub size: u64,
    /// Which event of the last call is none, from 0; how many there are where all are.
    pub event: usize,
}

/// A page that is begun, or none.
#[repr(C)]
#[derive(Debug)]
pub struct cqlp_page {
    /// The library's own.
    pub live: u64,
    /// The library's own.
    pub place: *mut c_void,
}

impl cqlp_page {
    /// A handle that has no page: `CQLP_NO_PAGE_YET`.
    pub const NONE: cqlp_page = cqlp_page {
        live: 0,
        place: std::ptr::null_mut(),
    };
}

/// What [`cqlp_page_put`] made of events.
#[repr(C)]
#[derive(Clone, Copy, Debug, Default)]
pub struct cqlp_put {
    /// How many events the cells have that were put.
    pub events: usize,
    /// How many bytes of the contents are those of these events.
    pub used: usize,
    /// How many bytes were put.
    pub length: usize,
    /// At which event it stopped, from 0; how many there are where it went over all.
    pub event: usize,
    /// Of [`CQLP_NO_ROOM`] how many bytes the next cell has; else 0.
    pub wanted: usize,
}

// The library's own layouts, as bindings/c/test.c has them.
const _: () = assert!(size_of::<cqlp_event>() == 56 + 2 * size_of::<*const u8>());
const _: () = assert!(offset_of!(cqlp_event, bytes) == 32 + 2 * size_of::<*const u8>());
const _: () = assert!(offset_of!(cqlp_event, octets) == 54 + 2 * size_of::<*const u8>());
const _: () = assert!(size_of::<cqlp_decoder>() == 56 + size_of::<*const u8>());
const _: () = assert!(size_of::<cqlp_limits>() == 20);
const _: () = assert!(size_of::<cqlp_batch_limits>() == 16);
const _: () = assert!(size_of::<cqlp_columns>() == 8 + size_of::<*const u8>());
const _: () = assert!(size_of::<cqlp_column>() == 8 * size_of::<*const u8>());
const _: () = assert!(offset_of!(cqlp_column, kind) == 7 * size_of::<*const u8>());
const _: () = assert!(size_of::<cqlp_holding>() == 12);
const _: () = assert!(size_of::<cqlp_encoded>() == 2 * size_of::<usize>());
const _: () = assert!(size_of::<cqlp_measured>() == 8 + size_of::<usize>());
const _: () = assert!(size_of::<cqlp_page>() == 8 + size_of::<*const u8>());
const _: () = assert!(size_of::<cqlp_put>() == 5 * size_of::<usize>());

extern "C" {
    /// Takes the next bytes of the stream, and puts the events that they end into the array, at most `room`.
    pub fn cqlp_next(
        decoder: *mut cqlp_decoder,
        input: *const u8,
        length: usize,
        events: *mut cqlp_event,
        room: usize,
        batch: *mut cqlp_batch,
    ) -> u32;

    /// Reads on, as [`cqlp_next`] does, with cells of a page put into the columns, up to the event that they do not take, which it puts.
    pub fn cqlp_columns_next(
        decoder: *mut cqlp_decoder,
        columns: *mut cqlp_columns,
        input: *const u8,
        length: usize,
        event: *mut cqlp_event,
        batch: *mut cqlp_batch,
    ) -> u32;

    /// Puts into `view` where the arrays of a column lie. They stay as they are until the next call on the handle other than this one.
    pub fn cqlp_columns_get(columns: *mut cqlp_columns, column: usize, view: *mut cqlp_column) -> u32;

    /// Removes all rows, also one that is under way, and keeps the memory.
    pub fn cqlp_columns_clear(columns: *mut cqlp_columns) -> u32;

    /// Frees the columns, and leaves a handle that has none.
    pub fn cqlp_columns_free(columns: *mut cqlp_columns) -> u32;

    /// How the stream ends, if it ends after the bytes that were used.
    pub fn cqlp_finish(decoder: *mut cqlp_decoder, end: *mut cqlp_end) -> u32;

    /// How much the decoder holds of the stream.
    pub fn cqlp_held(decoder: *mut cqlp_decoder, holding: *mut cqlp_holding) -> u32;

    /// Frees the decoder, and leaves a handle that has none.
    pub fn cqlp_free(decoder: *mut cqlp_decoder) -> u32;

    /// Puts the next cells of a page, each whole, and says how many events they have and how many bytes.
    pub fn cqlp_page_put(
        page: *mut cqlp_page,
        events: *const cqlp_event,
        count: usize,
        contents: *const u8,
        length: usize,
        bytes: *mut u8,
        room: usize,
        put: *mut cqlp_put,
    ) -> u32;

    /// Says whether the page is whole.
    pub fn cqlp_page_end(page: *mut cqlp_page) -> u32;

    /// Frees the page, whole or not, and leaves a handle that has none.
    pub fn cqlp_page_free(page: *mut cqlp_page) -> u32;
}

/// Calls that pass the layout of the caller's structs to the library, which answers [`CQLP_OTHER_LAYOUT`] where its own structs lie otherwise.
macro_rules! calls_by_layout {
    ($($(#[$doc:meta])* fn $name:ident = $by_layout:ident($($given:ident: $of:ty),*);)*) => {
        extern "C" {
            $(fn $by_layout(layout: u32, $($given: $of),*) -> u32;)*
        }
        $(
            $(#[$doc])*
            ///
            /// # Safety
            ///
            /// What `include/cqlp.h` says that the caller owes.
            #[allow(clippy::too_many_arguments)]
            #[inline]
            pub unsafe extern "C" fn $name($($given: $of),*) -> u32 {
                unsafe { $by_layout(CQLP_LAYOUT, $($given),*) }
            }
        )*
    };
}

calls_by_layout! {
    /// Makes a decoder in a handle that has none.
    fn cqlp_new = cqlp_new_by_layout(limits: *const cqlp_limits, decoder: *mut cqlp_decoder);

    /// The same, for a lenient reading.
    fn cqlp_new_lenient = cqlp_new_lenient_by_layout(limits: *const cqlp_limits, decoder: *mut cqlp_decoder);

    /// Makes columns without rows in a handle that has none, one for each of `count` kinds.
    fn cqlp_columns_new = cqlp_columns_new_by_layout(
        limits: *const cqlp_batch_limits,
        kinds: *const u8,
        count: usize,
        columns: *mut cqlp_columns
    );

    /// How a stream ends that is there whole.
    fn cqlp_check = cqlp_check_by_layout(
        limits: *const cqlp_limits,
        stream: *const u8,
        length: usize,
        end: *mut cqlp_end
    );

    /// Writes the frame that has these events, whose contents come one after the other; no pointer in an event is followed.
    fn cqlp_encode = cqlp_encode_by_layout(
        events: *const cqlp_event,
        count: usize,
        contents: *const u8,
        length: usize,
        bytes: *mut u8,
        room: usize,
        encoded: *mut cqlp_encoded
    );

    /// Adds up how many bytes of a page these events of cells take up.
    fn cqlp_page_measure = cqlp_page_measure_by_layout(
        events: *const cqlp_event,
        count: usize,
        contents: *const u8,
        length: usize,
        measured: *mut cqlp_measured
    );

    /// Begins a page in a handle that has none, whose cells will have `size` bytes, and puts all of its bytes before the first cell.
    fn cqlp_page_begin = cqlp_page_begin_by_layout(
        events: *const cqlp_event,
        count: usize,
        contents: *const u8,
        length: usize,
        size: u64,
        bytes: *mut u8,
        room: usize,
        page: *mut cqlp_page,
        begun: *mut cqlp_encoded
    );
}

#[cfg(test)]
mod tests {
    use super::*;

    fn size_of_member<S, M>(_: fn(&S) -> &M) -> usize {
        size_of::<M>()
    }

    macro_rules! layouts {
        ($($of:ident { $($member:ident),* },)*) => {{
            let mut lines = Vec::new();
            $(
                lines.push(format!("SIZE({}, {})", stringify!($of), size_of::<$of>()));
                $(lines.push(format!(
                    "MEMBER({}, {}, {}, {})",
                    stringify!($of),
                    stringify!($member),
                    offset_of!($of, $member),
                    size_of_member(|s: &$of| &s.$member)
                ));)*
            )*
            lines
        }};
    }

    /// The lines of bindings/c/layouts.h are written from the sources of the library.
    #[test]
    fn each_member_lies_where_the_library_has_it() {
        let text = include_str!("../../../c/layouts.h");
        let lines = layouts!(
            cqlp_limits {
                text,
                cell,
                entries,
                depth,
                types,
                parts
            },
            cqlp_decoder { live, place, course },
            cqlp_event {
                at,
                content,
                length,
                number,
                row,
                column,
                level,
                extra,
                bytes,
                tag,
                field,
                kind,
                opcode,
                flags,
                mark,
                octets
            },
            cqlp_batch {
                used,
                events,
                at,
                stop,
                reason
            },
            cqlp_end {
                at,
                bytes,
                verdict,
                reason
            },
            cqlp_holding { bytes, entries, levels },
            cqlp_columns { live, place },
            cqlp_batch_limits {
                columns,
                rows,
                bytes,
                content
            },
            cqlp_column {
                values,
                offsets,
                validity,
                empties,
                size,
                bounds,
                cells,
                kind
            },
            cqlp_encoded { length, event },
            cqlp_measured { size, event },
            cqlp_page { live, place },
            cqlp_put {
                events,
                used,
                length,
                event,
                wanted
            },
        );
        for line in &lines {
            assert!(text.lines().any(|one| one == line), "{line}");
        }
        assert!(text.ends_with(&format!("NUMBER(0x{CQLP_LAYOUT:08X})\n")));
    }
}
