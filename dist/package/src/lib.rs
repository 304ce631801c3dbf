//! A streaming codec of the CQL binary protocol, version 4 (`native_protocol_v4.spec` of Apache Cassandra), without compression.
//!
//! A [`Decoder`] reads frames from pieces of any size as [`Event`]s, and holds no more than its [`Limits`] say,
//! whatever lengths and counts a peer sends. [`frame`] has values of frames, what builds them of events and what writes them,
//! [`cells`] the same of the cells of pages, [`rows`] rows as Rust types, [`wire`] what lies between a socket and a message,
//! [`session`] the cores of a client and of a server, which pair replies with requests, [`text`]
//! the text of events and of pages, [`watch`] an observer of both sides of a connection, as a proxy has it, and [`capture`] readers of packet
//! captures. A [`SkippingDecoder`] reads on after a frame that is refused.
//!
//! # Read a page into structs
//!
//! [`row!`] makes a struct that is read from the columns of its fields' names, which may lend from the page. [`rows`] has more: tuples,
//! pages in pieces or without metadata, and values to bind.
//!
//! ```
//! use cqlp::rows::page_rows;
//!
//! cqlp::row! {
//!     #[derive(Debug, PartialEq)]
//!     struct User<'a> { id: i32, name: &'a str, years: Option<i32> = "age" }
//! }
//! # let frame = b"\x84\0\0\x07\x08\0\0\0[\0\0\0\x02\0\0\0\x01\0\0\0\x03\0\x04shop\0\x04user\0\x02id\0\x09\0\x04name\0\x0d\0\x03age\0\x09\
//! #     \0\0\0\x02\0\0\0\x04\0\0\0\x01\0\0\0\x03Ada\0\0\0\x04\0\0\0$\0\0\0\x04\0\0\0\x02\0\0\0\x03Bob\xff\xff\xff\xff";
//!
//! // The frame of a RESULT, its header first.
//! for user in page_rows::<User>(frame)? {
//!     let User { id, name, years } = user?;
//!     println!("{id}: {name}, {years:?}");
//! }
//! # let users = page_rows(frame)?.collect::<Result<Vec<User>, _>>()?;
//! # assert_eq!(users[0], User { id: 1, name: "Ada", years: Some(36) });
//! # assert_eq!(users[1], User { id: 2, name: "Bob", years: None });
//! # Ok::<(), cqlp::rows::RowError>(())
//! ```
//!
//! # Answer a driver
//!
//! A server with one table, which any driver can read. [`wire`] has more: pages whose rows go out as they are made, clients with many requests
//! open, and what an asynchronous runtime needs. A body that is compressed is refused, and
//! [there](wire#compressed-bodies) is how to switch compression off.
//!
#![cfg_attr(feature = "std", doc = "```")]
#![cfg_attr(not(feature = "std"), doc = "```ignore")]
//! use cqlp::frame::{Frame, Message, Spec, Value};
//! use cqlp::wire::ServerSide;
//! use cqlp::{ErrorCode, Kind};
//! use std::net::TcpListener;
//!
//! fn answer(request: Message) -> Message {
//!     match request {
//!         Message::Options => Message::supported(&[("CQL_VERSION", &["3.4.5"]), ("COMPRESSION", &[])]),
//!         Message::Startup(_) | Message::Register(_) => Message::Ready,
//!         Message::Query { text, .. } if text.contains("shop.price") => {
//!             Message::rows("shop", "price", vec![Spec::new("cents", Kind::Int)], vec![Value::from(250)])
//!         }
//!         _ => Message::error(ErrorCode::Invalid, "there is only shop.price"),
//!     }
//! }
//!
//! # let Ok(_) = TcpListener::bind("127.0.0.1:0") else { return Ok(()) };
//! let listener = TcpListener::bind("127.0.0.1:0")?; // drivers connect to 9042
//! # let port = listener.local_addr()?.port();
//! # let asking = std::thread::spawn(move || -> Result<i32, Box<dyn std::error::Error + Send + Sync>> {
//! #     let mut stream = std::net::TcpStream::connect(("127.0.0.1", port))?;
//! #     let mut client = cqlp::wire::ClientSide::new(1)?;
//! #     let params = cqlp::frame::QueryParams::new(cqlp::Consistency::One);
//! #     for message in [Message::Options, Message::startup(), Message::query("SELECT cents FROM shop.price", params)] {
//! #         client.ask(message, ())?;
//! #         client.wait(&mut stream)?;
//! #     }
//! #     let (cents,) = cqlp::rows::page_rows(client.frame())?.next().ok_or("no row")??;
//! #     Ok(cents)
//! # });
//! let (mut stream, _) = listener.accept()?; // a thread or a task for each
//! ServerSide::new(1 << 20)?.serve::<_, Box<dyn std::error::Error>>(&mut stream, |server, _, request| {
//!     Ok(server.answer(&Frame::plain(request.stream, answer(request.message)))?)
//! })?;
//! # assert_eq!(asking.join().unwrap().unwrap(), 250);
//! # Ok::<(), Box<dyn std::error::Error>>(())
//! ```
//!
//! # Pass on and alter
//!
//! One direction of a proxy, which renames a keyspace in queries. What is no query passes on as it came, whatever its version and size:
//!
#![cfg_attr(feature = "std", doc = "```")]
#![cfg_attr(not(feature = "std"), doc = "```ignore")]
//! use cqlp::wire::{Arrival, Inbox, TextAlterer};
//! use cqlp::{Field, Opcode};
//! use std::io::{Read, Write};
//!
//! fn relay(mut from: impl Read, mut to: impl Write) -> Result<(), Box<dyn std::error::Error>> {
//!     let (mut inbox, mut alterer) = (Inbox::new(1 << 20), TextAlterer::new(2 << 20)?);
//!     let asks = |opcode| matches!(opcode, Opcode::Query | Opcode::Prepare | Opcode::Batch);
//!     while inbox.receive(&mut from)? > 0 {
//!         while let Some((arrival, bytes)) = inbox.next(|header| header.to_header().is_ok_and(|header| asks(header.opcode))) {
//!             let altered = match arrival {
//!                 Arrival::Frame(_) => alterer.alter(bytes, |field, text| (field == Field::Query).then(|| text.replace("shop.", "store.")))?,
//!                 Arrival::Passing(_) => None,
//!             };
//!             to.write_all(altered.as_deref().unwrap_or(bytes))?;
//!         }
//!     }
//!     Ok(to.write_all(inbox.rest())?)
//! }
//!
//! let (asked, mut sent) = (*b"\x04\0\0\x01\x09\0\0\0\x0a\0\0\0\x06shop.t\x05\0\0\x02\x05\0\0\0\0", Vec::new());
//! relay(&asked[..], &mut sent)?;
//! assert_eq!(sent, b"\x04\0\0\x01\x09\0\0\0\x0b\0\0\0\x07store.t\x05\0\0\x02\x05\0\0\0\0");
//! # Ok::<(), Box<dyn std::error::Error>>(())
//! ```
//!
//! # What is promised
//!
//! The sources of this package were proved: each function does what its contract says, for every input, no index is out of
//! range, no sum wraps, and no loop goes on for ever. What you read here is the same text without the contracts, and without the
//! allocators that the sources pass, which `rustc` compiles. The comments beside each item say in words what its contract says. This
//! build itself is not proved: see README.md for what that leaves to be trusted, and how to check that nothing else was left out.
//!
//! * The events are exactly those that the protocol's definition says of the bytes so far, in any cutting into pieces.
//! * A stream is refused exactly where and why the definition refuses it, and each later call says it again.
//! * No length or count that a peer sends decides how much memory is taken: a decoder takes all of it when it is made.
//! * What is written of a frame is read back as its own events.
//! * A reply is paired with the request that it answers.
//!
//! # A file
//!
//! [`run`] reads a [`Source`], here any reader of std's, and hands each event with its offset to a [`Sink`]:
//!
#![cfg_attr(feature = "std", doc = "```")]
#![cfg_attr(not(feature = "std"), doc = "```ignore")]
//! use cqlp::{Decoder, Event, Finish, Limits, OfStd, Outcome, Scalar, Sink, SinkFault, run};
//! use std::fs::File;
//!
//! /// Adds the ints of all cells.
//! struct Sum(i64);
//!
//! impl Sink for Sum {
//!     fn take(&mut self, _at: u64, event: &Event<'_>) -> Result<(), SinkFault> {
//!         if let Event::Leaf { scalar: Scalar::Int(number), .. } = event {
//!             self.0 += i64::from(*number);
//!         }
//!         Ok(())
//!     }
//! }
//!
//! # let path = std::env::temp_dir().join(format!("cqlp-{}", std::process::id()));
//! # std::fs::write(&path, b"\x84\0\0\0\x08\0\0\0\x31\0\0\0\x02\0\0\0\x01\0\0\0\x01\0\x01k\0\x01t\0\x01c\0\x20\0\x09\0\0\0\x01\
//! #     \0\0\0\x10\0\0\0\x02\0\0\0\x04\0\0\0\x01\xff\xff\xff\xff")?;
//! let mut file = OfStd::new(File::open(&path)?);
//! let mut decoder = Decoder::new(Limits::DEFAULT)?;
//! let mut sum = Sum(0);
//! let outcome = run(&mut decoder, &mut file, &mut sum, u64::MAX);
//! assert_eq!(outcome, Outcome::Finished(Finish::Whole { bytes: 58 }));
//! assert_eq!(sum.0, 1);
//! # std::fs::remove_file(&path)?;
//! # Ok::<(), Box<dyn std::error::Error>>(())
//! ```
//!
//! # A socket
//!
//! Whoever has the bytes feeds each piece to the decoder, and a sink gets all events that it decides, by [`Decoder::feed`]:
//!
//! ```
//! use cqlp::{Decoder, Event, Fed, Limits, Sink, SinkFault};
//! use std::io::{Read, Write};
//! use std::net::{TcpListener, TcpStream};
//!
//! /// The opcode of each frame.
//! struct Opcodes(Vec<String>);
//!
//! impl Sink for Opcodes {
//!     fn take(&mut self, _at: u64, event: &Event<'_>) -> Result<(), SinkFault> {
//!         if let Event::Frame(header) = event {
//!             self.0.push(format!("{:?} under stream id {}", header.opcode, header.stream));
//!         }
//!         Ok(())
//!     }
//! }
//!
//! let Ok(listener) = TcpListener::bind("127.0.0.1:0") else {
//!     return Ok(()); // no loopback interface
//! };
//! let mut client = TcpStream::connect(listener.local_addr()?)?;
//! client.write_all(&[4, 0, 0, 1, 5, 0, 0, 0, 0])?;
//! drop(client);
//!
//! let mut server = listener.accept()?.0;
//! let mut decoder = Decoder::new(Limits::DEFAULT)?;
//! let (mut piece, mut opcodes) = ([0; 4096], Opcodes(Vec::new()));
//! loop {
//!     let count = server.read(&mut piece)?;
//!     if count == 0 {
//!         break;
//!     }
//!     match decoder.feed(&piece[..count], &mut opcodes) {
//!         Fed::More => {}
//!         Fed::Refused { refusal, .. } => return Err(refusal.into()),
//!         Fed::Fault { .. } => unreachable!("this sink takes all"),
//!     }
//! }
//! assert_eq!(opcodes.0, ["Options under stream id 1"]);
//! # Ok::<(), Box<dyn std::error::Error>>(())
//! ```
//!
//! [`Decoder::next`] answers one event at a time, for whoever wants to stop between two. What an event lends lies in the piece, or
//! in the decoder where a piece cut it. **A loop that ends when all bytes are used misses the end of the frame, which takes a call
//! with no bytes: go on until [`Step::More`].**
//!
//! # A page
//!
//! [`rows`] reads pages into structs and tuples, whole or in pieces, and binds Rust values to statements; it is written by hand, and not proved.
//! A [`Frame`](frame::Frame) is written whole by [`encode`](frame::encode), or cell by cell, without ever being held:
//!
#![cfg_attr(feature = "std", doc = "```")]
#![cfg_attr(not(feature = "std"), doc = "```ignore")]
//! use cqlp::frame::{Atom, Frame, Message, Metadata, PageWriter, Rows, Spec, TypeTree, Value, encode, value_size};
//! use cqlp::{Kind, OfStd};
//!
//! fn page(cells: Vec<Value>) -> Frame {
//!     let id = Spec { table: None, name: "id".to_string(), tree: TypeTree::Plain(Kind::Int) };
//!     let meta = Metadata {
//!         flags: 1,
//!         columns: 1,
//!         paging: None,
//!         table: Some(("shop".to_string(), "item".to_string())),
//!         specs: Some(vec![id]),
//!     };
//!     let message = Message::Rows(Rows { meta, rows: 2, cells });
//!     Frame { flags: 0, stream: 7, tracing: None, warnings: None, payload: None, message }
//! }
//!
//! let int = |number| Value::Leaf(Atom::Int(number));
//!
//! let mut whole = OfStd::new(Vec::new());
//! encode(&page(vec![int(1), int(2)]), &mut whole)?;
//!
//! // The header says how long the cells are, so that is known before the first of them.
//! let cells_len = 2 * value_size(&int(0)) as u32;
//! let (bare, mut by_cell) = (page(vec![]), OfStd::new(Vec::new()));
//! let mut writer = PageWriter::begin(&bare, cells_len, &mut by_cell)?;
//! for number in [1, 2] {
//!     writer.cell(&int(number), &mut by_cell)?;
//! }
//! writer.finish()?;
//! assert_eq!(by_cell.into_inner(), whole.into_inner());
//! # Ok::<(), Box<dyn std::error::Error>>(())
//! ```
//!
//! # A client and a server
//!
//! The cores do no input or output. Each is handed the headers that a decoder gives as [`Event::Frame`]:
//!
//! ```
//! use cqlp::session::{Client, Reply, RequestKind, Server};
//! use cqlp::{Header, Opcode};
//!
//! let header = |response, stream, opcode| Header { response, flags: 0, stream, opcode, length: 0 };
//! let (mut client, mut server) = (Client::new(2)?, Server::new(2)?);
//!
//! let startup = client.begin(RequestKind::Startup)?;
//! server.accept(&header(false, startup.id, Opcode::Startup))?;
//! server.answer(startup.id, Opcode::Ready)?;
//! client.reply(&header(true, startup.id, Opcode::Ready))?;
//!
//! // Two queries are under way, and the later is answered first.
//! let (first, second) = (client.begin(RequestKind::Query)?, client.begin(RequestKind::Query)?);
//! for query in [first, second] {
//!     server.accept(&header(false, query.id, Opcode::Query))?;
//! }
//! server.answer(second.id, Opcode::Result)?;
//! let reply = client.reply(&header(true, second.id, Opcode::Result))?;
//! assert_eq!(reply, Reply::Answer { ticket: second, kind: RequestKind::Query });
//! # Ok::<(), Box<dyn std::error::Error>>(())
//! ```
//!
//! # Traits of the caller's
//!
//! A [`Source`] that says that it read more than it was given room for, or a [`Target`] that says that it took more than it was
//! given, ends a call in a panic or has it answer a wrong count. Nothing that is `unsafe` rests on what they say. A [`Sink`] may
//! do as it likes.
//!
//! # Without std
//!
//! The feature `std`, which is on by default, is for [`OfStd`] alone. Without it the package needs `core` and `alloc`, and reads and
//! writes by a [`Source`] and a [`Target`] of the caller's.

#![cfg_attr(not(feature = "cli"), no_std)]
#![cfg_attr(not(feature = "std"), allow(rustdoc::broken_intra_doc_links))]
#![doc(test(attr(forbid(unsafe_code))))]
#![warn(missing_docs)]
// Each module is a whole library of the sources, of which this package exports a part.
#![allow(dead_code, unused_imports)]
// Arguments that contracts alone speak of.
#![allow(unused_variables)]
// The form of the code is what was proved: a `match` where `?` would do, say.
#![allow(clippy::style, clippy::complexity, clippy::manual_contains, clippy::large_enum_variant)]

#[cfg(not(target_pointer_width = "64"))]
compile_error!("each proof of these sources takes a usize to have 64 bits");

extern crate alloc;
#[cfg(all(feature = "std", not(feature = "cli")))]
extern crate std;

#[macro_use]
mod kit_std;

#[cfg(doctest)]
#[doc = include_str!("../README.md")]
struct Readme;

// What dist/erase writes has the layout of its source.
mod checked;
mod clones;
mod conversions;
#[rustfmt::skip]
mod cqlp_build;
#[rustfmt::skip]
mod cqlp_build_cells;
#[rustfmt::skip]
mod cqlp_capture;
#[rustfmt::skip]
mod cqlp_cell;
#[rustfmt::skip]
mod cqlp_columns;
#[rustfmt::skip]
mod cqlp_compose;
#[rustfmt::skip]
mod cqlp_decode;
#[rustfmt::skip]
mod cqlp_encode;
#[rustfmt::skip]
mod cqlp_observer_facts;
#[rustfmt::skip]
mod cqlp_grammar;
#[rustfmt::skip]
mod cqlp_json;
#[rustfmt::skip]
mod cqlp_kind;
#[rustfmt::skip]
mod cqlp_message;
#[rustfmt::skip]
mod cqlp_note;
#[rustfmt::skip]
mod cqlp_read_value;
#[rustfmt::skip]
mod cqlp_tcp_reassembly;
#[rustfmt::skip]
mod cqlp_render;
#[rustfmt::skip]
mod cqlp_tcp_segment;
#[rustfmt::skip]
mod cqlp_session;
#[rustfmt::skip]
mod cqlp_skip;
#[cfg(feature = "std")]
#[rustfmt::skip]
mod cqlp_sockets;
#[rustfmt::skip]
mod cqlp_row_text;
#[rustfmt::skip]
mod cqlp_text;
#[rustfmt::skip]
mod cqlp_type;
#[rustfmt::skip]
mod cqlp_type_tables;
#[rustfmt::skip]
mod cqlp_value;
#[rustfmt::skip]
mod cqlp_observer;
mod errors;
mod hex;
mod itoa;
mod jiff_core;
mod messages;
mod names;
mod params;
mod raw_cells;
pub mod rows;
mod shown;
mod uuid;
pub mod wire;

#[cfg(feature = "cli")]
mod clap;
#[cfg(feature = "cli")]
#[rustfmt::skip]
mod cqlp;
#[cfg(feature = "cli")]
#[rustfmt::skip]
mod cqlp_capture_events;
#[cfg(feature = "cli")]
#[rustfmt::skip]
mod cqlp_capture_frames;
#[cfg(feature = "cli")]
#[rustfmt::skip]
mod cqlp_capture_merge;
#[cfg(feature = "cli")]
#[rustfmt::skip]
mod cqlp_capture_rows;
#[cfg(feature = "cli")]
#[rustfmt::skip]
mod cqlp_tcp_connections;
#[cfg(feature = "cli")]
#[rustfmt::skip]
mod cqlp_capture_exchanges;
#[cfg(feature = "cli")]
#[rustfmt::skip]
mod cqlp_loop;
#[cfg(feature = "cli")]
#[rustfmt::skip]
mod cqlp_options;
#[cfg(feature = "cli")]
#[rustfmt::skip]
mod cqlp_capture_prepared;
#[cfg(feature = "cli")]
#[rustfmt::skip]
mod cqlp_packet_order;
#[cfg(feature = "cli")]
#[rustfmt::skip]
mod cqlp_pattern;
#[cfg(feature = "cli")]
#[rustfmt::skip]
mod cqlp_render_skip;
#[cfg(feature = "cli")]
#[rustfmt::skip]
mod cqlp_capture_streams;
#[cfg(feature = "cli")]
#[rustfmt::skip]
mod cqlp_capture_summary;
#[cfg(feature = "cli")]
#[rustfmt::skip]
mod cqlp_statement_file;
#[cfg(feature = "cli")]
#[rustfmt::skip]
mod cqlp_statement_types;
#[cfg(feature = "cli")]
#[rustfmt::skip]
mod cqlp_bound_values;
#[cfg(feature = "cli")]
#[rustfmt::skip]
mod cqlp_tool;
#[cfg(feature = "cli")]
mod json;
#[cfg(feature = "cli")]
mod kit_host;
#[cfg(feature = "cli")]
mod libc;
#[cfg(feature = "cli")]
mod lru;
#[cfg(feature = "cli")]
mod os;
#[cfg(feature = "cli")]
mod strsim;

/// The command `cqlp`, which src/bin/cqlp.rs runs.
#[must_use]
#[cfg(feature = "cli")]
#[doc(hidden)]
pub fn run_command() -> i32 {
    use kit_host::rt::{HostRuntime, Status};
    libc::keep_broken_pipes();
    match ending() {
        Ending::OfPipe => libc::ignore_interrupts(),
        Ending::ByInterrupt => libc::end_at_interrupts(),
        Ending::Usual => {}
    }
    cqlp::main(HostRuntime).status()
}

/// How the command ends at `^C`.
#[cfg(feature = "cli")]
enum Ending {
    Usual,
    /// `cqlp capture .. -` behind a pipe: `^C` ends what writes the capture, and with it the capture, so that the last lines, the summary and the verdict come.
    OfPipe,
    /// `cqlp capture .. --follow PATH`: `^C` ends what is followed, and these come.
    ByInterrupt,
}

#[cfg(feature = "cli")]
fn ending() -> Ending {
    use std::io::IsTerminal;
    let words: Vec<_> = std::env::args_os().skip(1).collect();
    match &words[..] {
        [first, .., last] if first == "capture" && last == "-" && !std::io::stdin().is_terminal() => Ending::OfPipe,
        [first, others @ .., last] if first == "capture" && last != "-" && others.iter().any(|word| word == "--follow") => {
            Ending::ByInterrupt
        }
        _ => Ending::Usual,
    }
}

pub use conversions::OtherValue;
pub use cqlp_decode::{
    Capacity, Decoder, Event, FaultAfter, Fed, Finish, GiveError, GiveReason, Held, NewError, Outcome, Sink, SinkFault, Step, run,
};
pub use cqlp_kind::{Kind, Node, Scalar};
#[cfg(feature = "std")]
pub use cqlp_note::OfStd;
pub use cqlp_note::{
    Address, BadLimits, BoundValue, Field, Header, IoFault, LimitRange, Limits, NoMemory, Opcode, Reason, Refusal, Source, Target,
};
pub use cqlp_skip::{NotSkippable, Skipped, SkippingDecoder};
#[cfg(feature = "std")]
pub use cqlp_sockets::{Cause, OfSocket};
pub use cqlp_type::TypeTable;
pub use cqlp_type_tables::{TableError, table_of, table_of_specs};
pub use names::{Consistency, ErrorCode, ResultKind, UnknownName, header_flag, query_flag};

/// Columns of pages, in the layout of Apache Arrow.
pub mod columns {
    pub use crate::cqlp_columns::{
        BatchLimits, Cell, Column, ColumnRefusal, Columns, Filled, Layout, MakeError, PageColumns, Stop, TakeError, Went, layout_of,
    };
}

/// Cells of pages, whose values are built of their events, and which are written of their events.
///
/// A [`CellBuilder`](cells::CellBuilder) makes the [`Value`](frame::Value) of a cell, so that a page of any size is read, altered and written
/// by a [`PageWriter`](frame::PageWriter) cell by cell. [`PageCells`](cells::PageCells) writes the next cells of a page of their events, and
/// after what [`page_head`](cells::page_head) answers they are the whole frame. Of a page that was read, here with its rows in two
/// pieces:
///
/// ```
/// use cqlp::cells::{CellLimits, PageCells, PageProgress, event_size, page_head};
/// use cqlp::frame::{Frame, Message, Metadata, Rows, Spec, TypeTree};
/// use cqlp::{Event, Kind, Scalar};
///
/// let spec = |name: &str, kind| Spec { table: None, name: name.to_string(), tree: TypeTree::Plain(kind) };
/// let table = ("shop".to_string(), "item".to_string());
/// let specs = vec![spec("id", Kind::Int), spec("name", Kind::Varchar)];
/// let meta = Metadata { flags: 1, columns: 2, paging: None, table: Some(table), specs: Some(specs) };
/// let frame = Frame::plain(7, Message::Rows(Rows { meta, rows: 2, cells: vec![] }));
///
/// let leaf = |row, column, scalar| Event::Leaf { row, column, level: 0, scalar };
/// let rows = [
///     [leaf(0, 0, Scalar::Int(1)), leaf(0, 1, Scalar::Varchar("spade"))],
///     [leaf(1, 0, Scalar::Int(2)), Event::Null { row: 1, column: 1, level: 0 }],
/// ];
///
/// // The header says how long the cells are, so that is known before the first of them.
/// let len = rows.iter().flatten().map(event_size).sum::<u64>() as u32;
/// let mut place = PageProgress::start(&frame, len)?;
/// let mut bytes = page_head(&frame, len)?;
/// for row in &rows {
///     let mut cells = PageCells::new(&frame, place, CellLimits { events: 100, bytes: 1_000 });
///     for event in row {
///         cells.take(event)?;
///     }
///     let written = cells.finish()?;
///     bytes.extend(&written.bytes);
///     place = written.place;
/// }
/// assert!(place.is_done(&frame));
/// assert_eq!(bytes[5..9], (bytes.len() as u32 - 9).to_be_bytes());
/// # Ok::<(), Box<dyn std::error::Error>>(())
/// ```
pub mod cells {
    pub use crate::cqlp_build_cells::{CellBuilder, CellError, CellLimits, ends_cell};
    pub use crate::cqlp_compose::{
        BeginPageError, BegunPage, HeadError, OpenPage, PageCellError, PageCells, PageProgress, PutCells, PutError, Unended, WrittenCells,
        event_size, page_head,
    };
}

/// Values of frames, what builds them of their events, and what writes them.
///
/// A [`FrameBuilder`](frame::FrameBuilder) takes the events that a decoder says, and makes the value of each frame, which may be altered and
/// written by [`encode`](frame::encode) again. A [`Composer`](frame::Composer) makes the bytes of one frame of its events, and needs no value.
/// Where the types of a page without metadata were given to the decoder, [`RawCells`](frame::RawCells) goes before either.
///
#[cfg_attr(feature = "std", doc = "```")]
#[cfg_attr(not(feature = "std"), doc = "```ignore")]
/// use cqlp::frame::{BuildLimits, Composer, FrameBuilder, Message, encode};
/// use cqlp::{Decoder, Event, Field, Header, Limits, OfStd, Opcode, Scalar, Step};
///
/// let limits = BuildLimits { fields: 1_000, depth: 10, bytes: 100_000 };
/// let mut composer = Composer::new(limits);
/// composer.take(&Event::Frame(Header { response: false, flags: 0, stream: 1, opcode: Opcode::Query, length: 0 }))?;
/// composer.take(&Event::Text { field: Field::Query, text: "SELECT now() FROM system.local" })?;
/// composer.take(&Event::Short { field: Field::Consistency, value: 1 })?;
/// composer.take(&Event::Byte { field: Field::QueryFlags, value: 0 })?;
/// let bytes = composer.write()?;
///
/// // Under another stream id, and of another consistency.
/// let (mut decoder, mut builder) = (Decoder::new(Limits::DEFAULT)?, FrameBuilder::new(limits));
/// let (mut rest, mut sent) = (&bytes[..], OfStd::new(Vec::new()));
/// while let Step::Event { used, event, .. } = decoder.next(rest) {
///     rest = &rest[used..];
///     if let Some(mut built) = builder.take(&event)? {
///         built.frame.stream = 7;
///         if let Message::Query { params, .. } = &mut built.frame.message {
///             params.consistency = 4;
///         }
///         encode(&built.frame, &mut sent)?;
///     }
/// }
/// let mut wanted = bytes.to_vec();
/// wanted[3] = 7;
/// wanted[9 + 4 + 30 + 1] = 4;
/// assert_eq!(sent.into_inner(), wanted);
/// # Ok::<(), Box<dyn std::error::Error>>(())
/// ```
pub mod frame {
    pub use crate::checked::encode_rows;
    pub use crate::cqlp_build::{BuildError, BuildLimits, BuiltFrame, FrameBuilder};
    pub use crate::cqlp_compose::Composer;
    pub use crate::cqlp_encode::{
        AppendError, BindError, EncodeError, LentError, PageError, PageWriter, ValueError, append, bind_value, encode, encode_from,
        raw_value, write_value,
    };
    pub use crate::cqlp_message::{
        BatchEntry, ErrorExtra, Frame, Message, Metadata, OwnedBound, PartRef, Prepared, QueryParams, Rows, SchemaChange, SchemaOptions,
        ServerEvent, Spec, TakesParts, Unfit,
    };
    pub use crate::cqlp_read_value::{CellContent, PageCell, ReadError, read_cell, read_value};
    pub use crate::cqlp_type::{TreeCheck, TypeTree, check_type, type_len};
    pub use crate::cqlp_value::{Atom, Content, Value, content_len, fits, fitting_size, value_len, value_size};
    pub use crate::raw_cells::RawCells;
}

/// The codes of errors after whose message more fields come, by their names. Section 9 of `native_protocol_v4.spec`.
pub mod error_code {
    pub use crate::cqlp_grammar::error_code::{
        ALREADY_EXISTS, FUNCTION_FAILURE, READ_FAILURE, READ_TIMEOUT, UNAVAILABLE, UNPREPARED, WRITE_FAILURE, WRITE_TIMEOUT,
    };
}

/// The kinds of results, by their names. Section 4.2.5 of `native_protocol_v4.spec`.
pub mod result_kind {
    pub use crate::cqlp_grammar::result_kind::{PREPARED, ROWS, SCHEMA_CHANGE, SET_KEYSPACE, VOID};
}

/// The cores of a client and of a server.
pub mod session {
    pub use crate::cqlp_session::{
        AnswerError, BeginError, Body, Client, ClientOf, IntoValues, Phase, Refused, Reply, ReplyOf, RequestKind, Server, ServerOf,
        ServerRefusal, SlotsOrMemory, Stray, Ticket, event_header,
    };
}

/// Packet captures: their packets, the segments of TCP in them, and the bytes of each direction of a connection in order.
///
/// A [`CaptureReader`](capture::CaptureReader) reads a pcap or pcapng file from pieces of any size. [`read_segment`](capture::read_segment)
/// finds the segment in a packet. A [`Stream`](capture::Stream) is one direction of a connection: of each segment
/// [`take`](capture::Stream::take) is called again and again until it says `Done`, and of each acknowledgement of the other side
/// [`acknowledge`](capture::Stream::acknowledge); where they say `Held`, [`held`](capture::Stream::held) lends bytes that came early, and
/// [`pass_held`](capture::Stream::pass_held) goes on behind them.
///
/// ```
/// use cqlp::capture::{Control, Stream, StreamSegment, StreamStep};
///
/// let control = |sequence| Control { sequence, syn: false, fin: false, rst: false, missing: 0 };
/// let first = StreamSegment { control: control(7), payload: b"ab", time: Some(1) };
/// let mut stream = Stream::new();
/// assert_eq!(stream.take(&first, 1_000)?, StreamStep::Began { syn: false });
/// assert_eq!(stream.take(&first, 1_000)?, StreamStep::Payload { from: 0, count: 2 });
///
/// // A later segment comes before the one that goes on, and is kept while the stream holds at most 1,000 bytes.
/// let later = StreamSegment { control: control(11), payload: b"ef", time: Some(2) };
/// assert_eq!(stream.take(&later, 1_000)?, StreamStep::Kept);
/// let next = StreamSegment { control: control(9), payload: b"cd", time: Some(3) };
/// assert_eq!(stream.take(&next, 1_000)?, StreamStep::Payload { from: 0, count: 2 });
/// assert_eq!(stream.take(&next, 1_000)?, StreamStep::Held { time: Some(2), begins: true });
/// assert_eq!(stream.held(), b"ef");
/// stream.pass_held();
/// assert_eq!(stream.take(&next, 1_000)?, StreamStep::Done);
/// # Ok::<(), Box<dyn std::error::Error>>(())
/// ```
pub mod capture {
    pub use crate::cqlp_capture::{
        ByteOrder, CaptureEnd, CaptureEvent, CaptureLimits, CaptureReader, CaptureReason, CaptureRefusal, CaptureStep, FileForm, Fraction,
        InterfaceHead, NewReaderError, PacketHead, SectionForm, SkipReason,
    };
    pub use crate::cqlp_tcp_reassembly::{Control, Distance, GapCause, RUN_SIZE, Stream, StreamSegment, StreamStep, distance_to};
    pub use crate::cqlp_tcp_segment::{Endpoint, Flags, IpAddress, LinkType, NoSegment, Segment, SegmentHead, read_segment};
}

/// What the two sides of a connection say to each other, as somebody between them sees it: a proxy, or the reader of a capture.
///
/// A [`Watch`](watch::Watch) takes the bytes of both directions as they pass, in pieces of any size, and answers each request with the
/// response that comes under its stream id. It goes by the headers of frames: a body may be of any length, compressed or one that a decoder
/// refuses, and nothing of it is held but the first 256 bytes of the message, with warnings the first 256 before it too, and its
/// [`Facts`](watch::Facts), which are read as the bytes pass. Memory is taken for each message that waits, some 200 bytes and its first bytes, and for the two bodies that pass, and given back
/// with them. Each call is given how much may wait: [`WatchRoom::ONE`](watch::WatchRoom::ONE), for who has one connection.
///
/// ```
/// use cqlp::watch::{Paired, Watch, WatchRoom};
/// use cqlp::Opcode;
///
/// let request = *b"\x04\0\0\x07\x07\0\0\0\x0d\0\0\0\x06SELECT\0\x01\0";
/// let response = *b"\x84\0\0\x07\0\0\0\0\x09\0\0\x20\0\0\x03BAD";
///
/// let mut watch = Watch::new()?;
/// watch.begin(false, true);
/// watch.begin(true, true);
/// let mut lines = Vec::new();
/// // As a proxy reads them: whether they are a response's, and when they came, in nanoseconds of any clock. A piece is taken before it is
/// // passed on, so that a request is taken before its reply. None is said to begin a segment, since no bytes are missing before it.
/// for (is_response, piece, time) in [(false, &request[..5], 1_000), (false, &request[5..], 2_000), (true, &response[..], 9_000)] {
///     let mut rest = piece;
///     loop {
///         let step = watch.take(is_response, rest, Some(time), false, WatchRoom::ONE)?;
///         rest = &rest[step.used..];
///         if let Some(Paired::Exchange { request, response }) = step.reported {
///             let took = response.frame.ended.zip(request.frame.begun).map(|(to, from)| to - from);
///             lines.push((request.frame.header.opcode, response.kept.facts().error, took));
///         }
///         if step.is_done {
///             break;
///         }
///     }
/// }
/// assert_eq!(lines, [(Opcode::Query, Some(0x2000), Some(8_000))]);
/// # Ok::<(), cqlp::memory::AllocError>(())
/// ```
///
/// Of what a `Watch` is made may be used by itself, where something else is to be kept of a message, or where bytes that are no frames are to
/// be reported: [`Heads`](watch::Heads) finds the frames of one direction, a [`FactsReader`](watch::FactsReader) reads the facts of a body,
/// and a [`Pairing`](watch::Pairing) pairs messages of which anything is kept. `examples/proxy` of this package is made of these.
pub mod watch {
    pub use crate::cqlp_observer::{
        Extent, Heads, Heard, HeardStep, Kept, LONGEST_FRONT, Missed, Opening, Paired, Pairing, SeenFrame, SeenMessage, Watch,
        WatchProgress, WatchRoom, WatchStep,
    };
    pub use crate::cqlp_observer_facts::{Facts, FactsReader};
}

/// The text of events, cells, pages and verdicts, the JSON of events, and rows as JSON and CSV, as the program `cqlp` writes it.
pub mod text {
    pub use crate::cqlp_json::json_line;
    pub use crate::cqlp_render::{render_events, render_rows};
    pub use crate::cqlp_row_text::{TablePlace, csv_part, json_part};
    pub use crate::cqlp_text::{
        Ending, PagePlace, cell_text, ending_line, event_line, field_name, kind_name, opcode_name, page_part, reason_name,
    };
}

/// Memory that is refused.
///
/// What a peer sends is held in memory that is asked for by std's `try_reserve`, of Rust's global allocator, and a refusal is an `Err`. Values
/// own their contents in std's `Vec`, `String` and `Box`. What says that it asks for memory as std does ends the program where it is refused.
pub mod memory {
    use crate::kit_std::boxed::KitBox;
    use alloc::boxed::Box;

    pub use crate::kit_std::alloc::{AllocError, AllocFailed};

    /// A value in memory of its own, as `Box::new` puts it there.
    ///
    /// # Errors
    ///
    /// Memory that is refused; the value comes back.
    pub fn try_box<T>(item: T) -> Result<Box<T>, AllocFailed<T>> {
        Box::kit_new(item)
    }
}
