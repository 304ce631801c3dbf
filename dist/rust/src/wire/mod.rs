//! Between a socket and messages: what each client, server and proxy needs, and nothing that waits.
//!
//! This module is written by hand over the public calls of the package, without `unsafe`, and **is not proved**; what it decodes, writes
//! and pairs is done by the proved sources.
//!
//! | | |
//! |---|---|
//! | [`ClientSide`] | requests that become bytes, and bytes that become replies, each with what its request carries |
//! | [`ServerSide`] | bytes that become requests, and replies that become bytes; pages whose rows come one by one |
//! | [`Inbox`] | pieces of any size that become whole frames, or pass on as they came |
//! | [`Outbox`] | bytes that wait to be sent |
//! | [`AnyHeader`] | a header of any version, of which nothing is refused |
//! | [`FrameReader`] | the bytes of a frame that become its value; [`Frame::to_bytes`](crate::frame::Frame::to_bytes) is the way back |
//! | [`TextAlterer`] | frames that are written again with other texts |
//! | [`PageTrack`] | the column of the bytes of a page that come next, and the cell of the last event |
//! | `KeepError` | a reader or a writer of std's that keeps the error of a call |
//!
//! None of them reads or writes a socket, but for `receive`, `send` and `wait`, which the feature `std` has: so they serve sockets that
//! wait, a loop that polls sockets that do not, and the tasks of an asynchronous runtime. A loop is always the same: read into
//! [`Inbox::room`], say how many bytes came by [`Inbox::filled`], call `hear` or `next` **until it answers None**, and write what the
//! [`Outbox`] has.
//!
//! [`ClientSide`] has the loop of a client, the front page of this package [that of a server](crate#answer-a-driver) and
//! [that of a proxy](crate#pass-on-and-alter).
//!
//! # Sockets that do not wait
//!
//! A call of `receive` or `send` that answers `WouldBlock` has lost nothing: what came is in the inbox, what was not taken stays in the
//! outbox. `examples/poll` of this package is that loop over many connections with std alone. The same loop over other crates:
//!
//! - mio: after `poll.poll(&mut events, None)?`, of each readable token `receive` until it would wait, of each writable one `send`.
//! - tokio: a task for each connection, with `let count = stream.read(side.inbox().room()?).await?; side.inbox().filled(count);`, and after
//!   `hear` answered None `stream.write_all(side.outbox().bytes()).await?`, after which [`Outbox::sent`] is called.
//! - futures, async-std and smol: the same calls of `AsyncReadExt` and `AsyncWriteExt`.
//!
//! # Compressed bodies
//!
//! A decoder refuses a body that is compressed. A driver compresses only what its STARTUP asks for, and asks only for what SUPPORTED
//! offers, so that either side can switch it off:
//!
//! | driver | option |
//! |---|---|
//! | Java, from 4 on | `advanced.protocol.compression = none`, which is the default |
//! | Java, 3 | `Cluster.builder().withCompression(ProtocolOptions.Compression.NONE)`, which is the default |
//! | Python | `Cluster(compression=False)`; else it compresses where lz4 or snappy is installed |
//! | Go, gocql | `ClusterConfig.Compressor = nil`, which is the default |
//! | Rust, scylla | `SessionBuilder::compression(None)`, which is the default |
//!
//! A proxy takes the offer away: of each SUPPORTED that passes, the values of `COMPRESSION` are left out by
//! [`Message::without_compression`](crate::frame::Message::without_compression), and the frame is written again. It does the same with
//! STARTUP, whose driver may ask unseen:
//!
//! ```
//! use cqlp::frame::{Frame, Message};
//! use cqlp::wire::FrameReader;
//!
//! let offered = Frame::plain(1, Message::supported(&[("CQL_VERSION", &["3.4.5"]), ("COMPRESSION", &["lz4", "snappy"])])).to_bytes()?;
//! let mut frame = FrameReader::new()?.read(&offered)?;
//! frame.message = frame.message.without_compression();
//! assert_eq!(frame.message, Message::supported(&[("CQL_VERSION", &["3.4.5"]), ("COMPRESSION", &[])]));
//! let passed_on = frame.to_bytes()?;
//! # Ok::<(), cqlp::wire::WireError>(())
//! ```
#![forbid(unsafe_code)]

mod any_header;
mod client;
mod fault;
mod frames;
mod inbox;
#[cfg(feature = "std")]
mod keep_error;
mod page_track;
mod server;

pub use any_header::AnyHeader;
pub use client::{ClientSide, Response};
pub use fault::WireError;
pub use frames::{FRAME_LIMITS, FrameReader, Outbox, TextAlterer};
pub use inbox::{Arrival, Inbox};
#[cfg(feature = "std")]
pub use keep_error::KeepError;
pub use page_track::{CellPlace, PageTrack, TrackedColumn};
pub use server::ServerSide;
