// Written by dist/erase from crates/cqlp_session/src/lib.rt.
//! Client and server cores of the CQL native protocol v4: which requests may be sent, under which stream id, and which
//! request a reply answers. The cores do no input or output, and take memory only where they are made.

mod body;
mod carried;
mod client;
mod client_of;
mod headers;
mod into_values;
mod kind;
mod phase;
mod refusal;
mod server;
mod server_of;
mod slots;
mod stream_ids;
mod streams;
mod ticket;

pub use body::Body;
pub use carried::Refused;
pub use client::Client;
pub use client_of::{ClientOf, ReplyOf};
pub use headers::event_header;
pub use into_values::IntoValues;
pub use kind::RequestKind;
pub use phase::Phase;
pub use refusal::SlotsOrMemory;
pub use server::{AnswerError, Server, ServerRefusal};
pub use server_of::ServerOf;
pub use ticket::{BeginError, Reply, Stray, Ticket};
