// Written by dist/erase from crates/cqlp_message/src/lib.rt.
//! Frame values of the CQL native protocol v4: what they hold, and why one has no spelling.

mod agreement;
mod frame;
mod message;
mod message_parts;
mod page;
mod page_parts;
mod part;
mod plain;
mod request;
mod request_parts;
mod response;
mod response_parts;
mod tally;
mod unfit;
mod version_error;
mod walk;

pub use frame::Frame;
pub use message::Message;
pub use part::{PartRef, TakesParts};
pub use request::{BatchEntry, OwnedBound, QueryParams};
pub use response::{
    ErrorExtra, Metadata, Prepared, Rows, SchemaChange, SchemaOptions, ServerEvent, Spec,
};
pub use tally::Tally;
pub use unfit::Unfit;
