//! Why a cell, a row or a page is not what a program asks for.

use alloc::string::String;
use core::error::Error;
use core::fmt;

use crate::cqlp_kind::Kind;
use crate::cqlp_note::Refusal;
use crate::cqlp_text::kind_name;

/// Why a cell is no value of a Rust type.
#[derive(Clone, Copy, Debug, PartialEq, Eq)]
#[non_exhaustive]
pub enum Mismatch {
    /// The cell, or an item of it, is of a type that the Rust type does not read.
    Type {
        /// The Rust type.
        wanted: &'static str,
        /// The type of the cell or of the item.
        came: Kind,
    },
    /// The cell, or an item of it, is null.
    Null {
        /// The Rust type.
        wanted: &'static str,
    },
    /// The cell, or an item of it, has no bytes, and the Rust type has no value for that.
    Empty {
        /// The Rust type.
        wanted: &'static str,
    },
    /// A blob has another number of bytes than an array.
    Length {
        /// How many bytes the array has.
        wanted: usize,
        /// How many bytes the blob has.
        came: usize,
    },
    /// A tuple or a user-defined value has more fields than the Rust tuple.
    Fields {
        /// How many fields the Rust tuple has.
        wanted: usize,
        /// How many fields came.
        came: usize,
    },
    /// The page has no metadata, and no types were given for it.
    Untyped {
        /// The Rust type.
        wanted: &'static str,
    },
    /// The allocator refused memory for the value.
    NoMemory,
}

/// The Rust type for cells of a kind.
pub(crate) fn type_of(kind: Kind) -> &'static str {
    match kind {
        Kind::Ascii | Kind::Varchar => "String",
        Kind::Bigint => "i64",
        Kind::Blob => "Vec<u8>",
        Kind::Boolean => "bool",
        Kind::Counter => "rows::Counter",
        Kind::Custom | Kind::Raw => "Value",
        Kind::Date => "rows::Date",
        Kind::Decimal => "rows::Decimal",
        Kind::Double => "f64",
        Kind::Float => "f32",
        Kind::Inet => "IpAddr",
        Kind::Int => "i32",
        Kind::List => "Vec",
        Kind::Map => "HashMap",
        Kind::Set => "HashSet",
        Kind::Smallint => "i16",
        Kind::Time => "rows::Time",
        Kind::Timestamp => "rows::Timestamp",
        Kind::Timeuuid => "rows::Timeuuid",
        Kind::Tinyint => "i8",
        Kind::Tuple | Kind::Udt => "a tuple",
        Kind::Uuid => "rows::Uuid",
        Kind::Varint => "rows::Varint",
    }
}

impl fmt::Display for Mismatch {
    fn fmt(&self, f: &mut fmt::Formatter<'_>) -> fmt::Result {
        match *self {
            Mismatch::Type { wanted, came } => {
                write!(f, "{wanted} is wanted, and {} came, which {} reads", kind_name(came), type_of(came))
            }
            Mismatch::Null { wanted } => write!(f, "{wanted} is wanted, and null came, which Option<{wanted}> reads"),
            Mismatch::Empty { wanted } => write!(f, "{wanted} is wanted, and a value without bytes came, which Value reads"),
            Mismatch::Length { wanted, came } => {
                write!(f, "[u8; {wanted}] is wanted, and a blob of {came} bytes came, which Vec<u8> reads")
            }
            Mismatch::Fields { wanted, came } => {
                write!(f, "a tuple of {wanted} is wanted, and {came} fields came, which a tuple of as many reads")
            }
            Mismatch::Untyped { wanted } => {
                write!(f, "{wanted} is wanted, and the page has no types: give those of the PREPARED result, or ask for metadata")
            }
            Mismatch::NoMemory => f.write_str("no memory for the value"),
        }
    }
}

impl Error for Mismatch {}

/// Why there is no row.
#[derive(Clone, Debug, PartialEq, Eq)]
#[non_exhaustive]
pub enum RowError {
    /// The page has no column of this name.
    MissingColumn {
        /// The name that a field of the struct asks for.
        name: &'static str,
    },
    /// Two fields of the struct ask for one column.
    TwoFields {
        /// The name of the column.
        name: &'static str,
    },
    /// The page has fewer columns than the tuple has fields.
    TooFewColumns {
        /// How many fields the tuple has.
        wanted: usize,
        /// How many columns the page has.
        came: usize,
    },
    /// The page has no metadata, and its columns were not named.
    NoNames,
    /// A cell is no value of the field's type.
    Cell {
        /// The row in its page, from 0.
        row: u32,
        /// The column, from 0.
        column: u32,
        /// The name of the column; empty where the page has none.
        name: String,
        /// Why not.
        why: Mismatch,
    },
    /// A cell has more items or bytes than the limits on cells allow.
    TooLarge {
        /// The row in its page, from 0.
        row: u32,
        /// The column, from 0.
        column: u32,
    },
    /// A content came in parts, which the decoder's limits ask for.
    InParts {
        /// The row in its page, from 0.
        row: u32,
        /// The column, from 0.
        column: u32,
    },
    /// The decoder refused the bytes.
    Refused(Refusal),
    /// The bytes end before their frame does.
    Cut {
        /// How many bytes there are.
        len: usize,
    },
    /// The frame is an ERROR.
    Server {
        /// Its code, of section 9 of `native_protocol_v4.spec`.
        code: i32,
        /// Its message.
        message: String,
    },
    /// The frame is no RESULT of the kind Rows.
    NoPage,
    /// The closure gave up.
    Stopped,
    /// The allocator refused memory for a page's columns.
    NoMemory,
}

impl fmt::Display for RowError {
    fn fmt(&self, f: &mut fmt::Formatter<'_>) -> fmt::Result {
        match self {
            RowError::MissingColumn { name } => {
                write!(f, "the page has no column {name:?}: select it, or rename the field by = \"COLUMN\"")
            }
            RowError::TwoFields { name } => write!(f, "two fields of the struct ask for column {name:?}: leave one out"),
            RowError::TooFewColumns { wanted, came } => {
                write!(f, "a tuple of {wanted} is wanted, and the page has {came} columns: select more, or take a shorter tuple")
            }
            RowError::NoNames => f.write_str("the page has no metadata: give the columns of the PREPARED result, or take a tuple"),
            RowError::Cell { row, column, name, why } => write!(f, "row {row}, column {column} {name:?}: {why}"),
            RowError::TooLarge { row, column } => {
                write!(f, "row {row}, column {column}: more items or bytes than CellLimits allow: raise them")
            }
            RowError::InParts { row, column } => {
                write!(f, "row {row}, column {column}: a content in parts: make the decoder with Limits::parts false")
            }
            RowError::Refused(refusal) => write!(f, "the decoder refused {refusal}"),
            RowError::Cut { len } => write!(f, "the frame is longer than the {len} bytes that are there: read on, or take a RowSink"),
            RowError::Server { code, message } => write!(f, "the server answered ERROR {code:04x}: {message}"),
            RowError::NoPage => f.write_str("the frame is no page of rows: look at its opcode and result kind first"),
            RowError::Stopped => f.write_str("the closure that takes the rows gave up"),
            RowError::NoMemory => f.write_str("no memory for the columns of a page"),
        }
    }
}

impl Error for RowError {
    fn source(&self) -> Option<&(dyn Error + 'static)> {
        match self {
            RowError::Cell { why, .. } => Some(why),
            RowError::Refused(refusal) => Some(refusal),
            _ => None,
        }
    }
}

impl From<Refusal> for RowError {
    fn from(refusal: Refusal) -> RowError {
        RowError::Refused(refusal)
    }
}
