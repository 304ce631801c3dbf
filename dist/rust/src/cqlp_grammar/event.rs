// Written by dist/erase from crates/cqlp_grammar/src/event.rt.
//! What a stream says, event by event.

use crate::cqlp_kind::{Kind, Scalar};
use crate::cqlp_note::{Address, BoundValue, Field, Header, Refusal};

/// One thing that a stream says: a header (section 2 of `native_protocol_v4.spec`), a field of a message in one of the
/// notations of section 3, a type option (section 4.2.5.2), a part of a cell (section 6), or a frame's end. Contents are
/// lent from the input or from the decoder. Each text and content is within the limits, and each length and count within
/// its frame.
///
/// Rows and columns count from 0. A level is the number of values around a value, 0 for the cell itself.
#[derive(Clone, Copy, Debug, PartialEq, Eq)]
pub enum Event<'a> {
    /// A frame begins, with this header of 9 bytes.
    Frame(Header),
    /// A \[byte\].
    Byte {
        /// The field that it is, such as [`Field::QueryFlags`] or [`Field::BatchType`].
        field: Field,
        /// The byte, unsigned; of flags the bits that are set.
        value: u8,
    },
    /// A \[short\] that is no count.
    Short {
        /// The field that it is, such as [`Field::Consistency`] or [`Field::KeyIndex`].
        field: Field,
        /// The number, unsigned.
        value: u16,
    },
    /// An \[int\] that is no count.
    Int {
        /// The field that it is, such as [`Field::ErrorCode`] or [`Field::PageSize`].
        field: Field,
        /// The number, signed.
        value: i32,
    },
    /// A \[long\].
    Long {
        /// Always [`Field::Timestamp`]. Sections 4.1.4 and 4.1.7.
        field: Field,
        /// The time that the statements have by default, in microseconds from the start of 1970.
        value: i64,
    },
    /// A \[uuid\], its 16 bytes in their order.
    Uuid {
        /// Always [`Field::TraceId`]. Section 2.2.
        field: Field,
        /// The id of the tracing session, its 16 bytes in the order of the frame.
        value: [u8; 16],
    },
    /// A number of items that follow: a \[short\], or an \[int\] that is not negative.
    Count {
        /// The field that it is, such as [`Field::Columns`] or [`Field::Values`].
        field: Field,
        /// The number of items, 0 to 65,535 of a \[short\] and 0 to 2^31 - 1 of an \[int\].
        count: u32,
    },
    /// A \[string\] or a \[long string\], in UTF-8.
    Text {
        /// The field that it is, such as [`Field::Query`] or [`Field::ColumnName`].
        field: Field,
        /// The text without its length, at most `Limits::text` bytes.
        text: &'a str,
    },
    /// \[bytes\] or \[short bytes\]; None is null, a negative length.
    Bytes {
        /// The field that it is, such as [`Field::PagingState`] or [`Field::StatementId`].
        field: Field,
        /// The content without its length, at most `Limits::cell` bytes; `Some` of no bytes where the length is 0.
        bytes: Option<&'a [u8]>,
    },
    /// A \[value\]: null, not set, or bytes.
    Bound {
        /// Always [`Field::Value`]. Sections 4.1.4 and 4.1.7.
        field: Field,
        /// The value without its length, at most `Limits::cell` bytes. Its type is that of the variable to which it is bound; no request has it.
        value: BoundValue<'a>,
    },
    /// An \[inet\]: an address of 4 or 16 bytes, and its port.
    Inet {
        /// Always [`Field::Address`]. Section 4.2.6.
        field: Field,
        /// The address of the node, of IPv4 or of IPv6.
        address: Address,
        /// The port of the node, an \[int\]; a number that is no port, as 65,536, is kept.
        port: i32,
    },
    /// A type option, or one in another, of this kind. Its parameters, if any, follow as Text, Count and TypeNode.
    TypeNode(Kind),
    /// A scalar of a cell, or the cell itself.
    Leaf {
        /// The row of its cell in the page. Section 4.2.5.2.
        row: u32,
        /// The column of its cell, in the order of the metadata.
        column: u32,
        /// How many values lie around it, 0 for the cell itself.
        level: u32,
        /// Its content, at most `Limits::cell` bytes, read by its type; raw where its type is not known.
        scalar: Scalar<'a>,
    },
    /// A value of a negative length.
    Null {
        /// The row of its cell in the page. Section 4.2.5.2.
        row: u32,
        /// The column of its cell, in the order of the metadata.
        column: u32,
        /// How many values lie around it, 0 for the cell itself.
        level: u32,
    },
    /// A value of no bytes.
    Empty {
        /// The row of its cell in the page. Section 4.2.5.2.
        row: u32,
        /// The column of its cell, in the order of the metadata.
        column: u32,
        /// How many values lie around it, 0 for the cell itself.
        level: u32,
    },
    /// A value with items begins: how many a list or a set has, the pairs of a map, or the types of the items of a tuple
    /// or a user-defined type.
    Enter {
        /// The row of its cell in the page. Section 4.2.5.2.
        row: u32,
        /// The column of its cell, in the order of the metadata.
        column: u32,
        /// How many values lie around it, 0 for the cell itself. Its items have one more.
        level: u32,
        /// List, map, set, tuple or user-defined type: what its items are, and how they are counted.
        kind: Kind,
        /// How many items it announces. A tuple or a user-defined type may end before all of them came.
        items: u32,
    },
    /// Such a value ends, after this many items; a map's are pairs. Its offset is where the value ends.
    Leave {
        /// The level of the `Enter` that began the value.
        level: u32,
        /// How many items came, at most as many as the `Enter` announced.
        items: u32,
    },
    /// Bytes of a long blob, custom or raw scalar, from this offset in it, where the limits ask for parts.
    Part {
        /// The row of its cell in the page. Section 4.2.5.2.
        row: u32,
        /// The column of its cell, in the order of the metadata.
        column: u32,
        /// How many values lie around it, 0 for the cell itself.
        level: u32,
        /// How many bytes of the scalar came before these.
        offset: u32,
        /// The next bytes of the scalar: `Limits::cell` of them, except in its last part, which has at most as many.
        bytes: &'a [u8],
        /// Whether the scalar ends with these bytes.
        last: bool,
    },
    /// The frame ends, with this many bytes after its last field.
    End {
        /// How many bytes of the body lie behind its last field, 0 where the message fills it.
        extra: u32,
    },
}

/// How a stream ends, if it ends after the bytes that were used.
#[derive(Clone, Copy, Debug, PartialEq, Eq)]
pub enum Finish {
    /// At a frame's end, after this many bytes.
    Whole {
        /// How many bytes the stream has, 0 where it has no frame.
        bytes: u64,
    },
    /// Within the frame that begins at an offset, after this many bytes.
    Cut {
        /// The offset of the first byte of the frame's header in the stream.
        frame_at: u64,
        /// How many bytes of the stream came, those of the unfinished frame among them.
        bytes: u64,
    },
    /// It was refused.
    Refused(Refusal),
}
