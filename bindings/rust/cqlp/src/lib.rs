//! The CQL binary protocol, version 4 (`native_protocol_v4.spec` of Apache Cassandra), read as events, and written of them.
//!
//! A [`Decoder`] takes the bytes of a connection, or of a file of frames, in pieces of any size. Its events borrow from it and from
//! the piece, so the next call waits until they are let go. It holds no more than its [`Limits`] say, whatever lengths and counts a
//! peer sends. It uses libcqlp, which is written in Rattle and proved: the events are those that the bytes used say, in order.
//! [`encode`] and [`Composer`] write the frame that has given events, or name the one that is refused. A [`PageWriter`] does so for a page of any
//! size, of which it holds the head and some cells.
//! The module [`columns`] reads pages column by column, in the layout of Apache Arrow.
//! Not proved is this crate, which is thin: it calls the library, and gives what it puts Rust's types.
//!
//! ```
//! use cqlp::{Decoder, Limits};
//!
//! // a request, OPTIONS
//! let bytes = [0x04, 0, 0, 0, 0x05, 0, 0, 0, 0];
//! let mut decoder = Decoder::new(Limits::default())?;
//! let mut lines = Vec::new();
//! let mut events = decoder.decode(&bytes);
//! while let Some(event) = events.next_event()? {
//!     lines.push(event.to_string());
//! }
//! assert_eq!(lines, ["0 Frame request 00 0 OPTIONS 0", "9 End 0"]);
//! assert_eq!(decoder.finish().to_string(), "whole 9");
//! # Ok::<(), Box<dyn std::error::Error>>(())
//! ```
//!
//! An event cannot be used after the next call:
//!
//! ```compile_fail,E0499
//! # use cqlp::{Decoder, Limits};
//! # let mut decoder = Decoder::new(Limits::default()).unwrap();
//! let first: Vec<_> = decoder.batch(&[0x04, 0, 0, 0, 0x05, 0, 0, 0, 0]).collect();
//! let second = decoder.batch(&[]);
//! println!("{}", first[0]);
//! ```
//!
//! nor after its input:
//!
//! ```compile_fail,E0597
//! # use cqlp::{Decoder, Limits};
//! # let mut decoder = Decoder::new(Limits::default()).unwrap();
//! let events: Vec<_> = {
//!     let input = vec![0x04, 0, 0, 0, 0x05, 0, 0, 0, 0];
//!     decoder.batch(&input).collect()
//! };
//! println!("{}", events[0]);
//! ```
#![deny(missing_docs)]

pub mod columns;
mod decoder;
mod encode;
mod event;
mod line;
mod names;
mod pages;

pub use decoder::{check, BadLimit, Batch, Decoder, Events, Held, Limits, NewError, Refusal, Stop, Verdict};
pub use encode::{encode, Composer, EncodeError};
pub use event::{Bound, Event, Frame, Place, Scalar, Sink, SinkFault, What};
pub use names::{Code, Field, Kind, Opcode, Reason};
pub use pages::{cells_size, PageError, PageWriter};
