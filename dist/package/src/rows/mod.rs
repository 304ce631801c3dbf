//! Rows of pages as Rust types, and Rust types as values to bind.
//!
//! This module is written by hand over the public calls of the package, without `unsafe`, and **is not proved**. What it reads was
//! decoded by a [`Decoder`](crate::Decoder), or, in a page that is whole in memory, cell by cell and item by item by
//! [`read_cell`](crate::frame::read_cell); what it binds is written by [`bind_value`](crate::frame::bind_value). The sources of all three
//! are proved. That counts and items follow one another as a decoder reads them, `walk.rs` and `items.rs` say again, and tests compare.
//!
//! # Read a page into structs
//!
//! [`row!`](crate::row) makes a struct whose fields are read from the columns of their names; a tuple is read by the places of columns.
//! [`page_rows`] reads a page that is whole in memory, from which fields may lend; a
//! [`RowSink`] reads pages of any size, in pieces:
//!
//! ```
//! use cqlp::rows::{RowError, RowSink, page_rows};
//! use cqlp::{Decoder, Limits};
//!
//! cqlp::row! {
//!     #[derive(Debug, PartialEq)]
//!     struct User<'a> { id: i32, name: &'a str, years: Option<i32> = "age" }
//! }
//! # let frame = b"\x84\0\0\x07\x08\0\0\0[\0\0\0\x02\0\0\0\x01\0\0\0\x03\0\x04shop\0\x04user\0\x02id\0\x09\0\x04name\0\x0d\0\x03age\0\x09\
//! #     \0\0\0\x02\0\0\0\x04\0\0\0\x01\0\0\0\x03Ada\0\0\0\x04\0\0\0$\0\0\0\x04\0\0\0\x02\0\0\0\x03Bob\xff\xff\xff\xff";
//! let users = page_rows(frame)?.collect::<Result<Vec<User>, _>>()?;
//! assert_eq!(users[0], User { id: 1, name: "Ada", years: Some(36) });
//! assert_eq!(users[1], User { id: 2, name: "Bob", years: None });
//!
//! let mut names = Vec::new();
//! let mut rows = RowSink::new(|(_, name): (i32, String)| {
//!     names.push(name);
//!     Ok(())
//! });
//! let mut decoder = Decoder::new(Limits::DEFAULT)?;
//! for piece in frame.chunks(10) {
//!     rows.feed(&mut decoder, piece)?;
//! }
//! assert!(rows.head().ended && rows.head().paging_state.is_none());
//! assert_eq!(names, ["Ada", "Bob"]);
//!
//! let error = page_rows::<(i32, i64)>(frame)?.next().unwrap().unwrap_err();
//! assert_eq!(error.to_string(), "row 0, column 1 \"name\": i64 is wanted, and varchar came, which String reads");
//! # Ok::<(), Box<dyn std::error::Error>>(())
//! ```
//!
//! Pages of a prepared statement that come without metadata are read by the columns of its PREPARED result, which
//! [`PageReader::give`](crate::rows::PageReader::give) takes, or [`RowSink::name_columns`](crate::rows::RowSink::name_columns) and
//! [`Decoder::give`](crate::Decoder::give).
//!
//! # Bind values
//!
//! [`bind!`](crate::bind) checks values against the types of a statement's markers, [`Prepared::specs`](crate::frame::Prepared::specs):
//!
//! ```
//! use cqlp::frame::{QueryParams, Spec, TypeTree};
//! use cqlp::{Kind, bind};
//!
//! let spec = |name: &str, kind| Spec { table: None, name: name.to_string(), tree: TypeTree::Plain(kind) };
//! let specs = [spec("id", Kind::Int), spec("name", Kind::Varchar)];
//!
//! let values = Some(bind!(&specs; 7, "Ada")?);
//! let params = QueryParams { consistency: 1, flags: 0x01, values, page_size: None, paging: None, serial: None, timestamp: None };
//!
//! let error = bind!(&specs; 7i64, "Ada").unwrap_err();
//! assert_eq!(error.to_string(), "value 0 \"id\": int is wanted, which i32 writes, and i64 is given");
//! # Ok::<(), cqlp::rows::BindFault>(())
//! ```
//!
//! # Types
//!
//! | type of a column | Rust types |
//! |---|---|
//! | tinyint, smallint, int, bigint | `i8`, `i16`, `i32`, `i64` |
//! | float, double, boolean | `f32`, `f64`, `bool` |
//! | ascii, varchar | `String`, `&str` |
//! | blob, custom | `Vec<u8>`, `&[u8]`; of a blob of N bytes `[u8; N]` |
//! | inet | `IpAddr`; of one version `Ipv4Addr` or `Ipv6Addr` |
//! | uuid, timeuuid | [`Uuid`], `[u8; 16]`; of a timeuuid [`Timeuuid`] |
//! | date, time, timestamp | [`Date`], [`Time`], [`Timestamp`] |
//! | counter, decimal, varint | [`Counter`], [`Decimal`], [`Varint`] |
//! | list, set | `Vec`, `BTreeSet`, with the feature `std` `HashSet` |
//! | map | `BTreeMap`, with the feature `std` `HashMap` |
//! | tuple, user-defined type | tuples of up to 12, by the places of fields |
//! | any of these, or null | `Option` |
//! | any type | [`Value`](crate::frame::Value) |
#![forbid(unsafe_code)]

mod bind;
mod cell;
mod cells;
mod collections;
mod error;
mod feed;
mod from_cell;
mod from_row;
mod items;
mod newtypes;
mod reading;
mod sink;
mod to_cell;
mod walk;
mod whole;
mod write;

pub use crate::{bind, row};
pub use bind::{BindFault, BoundValues, Unbound, bind_values};
pub use cell::LentCell;
#[doc(hidden)]
pub use cells::{NotRead, RowCells};
pub use error::{Mismatch, RowError};
pub use from_cell::FromCell;
pub use from_row::{FromRow, Row};
#[doc(hidden)]
pub use from_row::{is_wide, set_field};
pub use items::LentItems;
pub use newtypes::{Counter, Date, Decimal, Time, Timestamp, Timeuuid, Uuid, Varint};
pub use reading::PageHead;
pub use sink::{CELL_LIMITS, RowSink};
pub use to_cell::{ToCell, Unset};
pub use whole::{PageReader, PageRows, page_rows};
pub use write::{RowWriter, ToRow, WriteFault, row_size};
