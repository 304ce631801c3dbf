// Written by dist/erase from crates/cqlp_tcp_segment/src/lib.rt.
//! TCP segments out of captured packets.

mod addresses;
mod ether_type;
mod fields;
mod ip;
mod link;
mod reason;
mod segments;
mod tcp;
mod tunnels;

pub use addresses::{IpAddress, Endpoint};
pub use link::LinkType;
pub use reason::NoSegment;
pub use segments::{Segment, SegmentHead, read_segment};
pub use tcp::Flags;
