// Written by dist/erase from crates/cqlp_capture_streams/src/connection_event.rt.
//! An event of a connection of a capture.

use crate::cqlp_tcp_connections::{ConnectionTotals, Delivery};

/// An event of a connection of a capture.
#[derive(Clone, Copy)]
pub enum ConnectionEvent<'a> {
    /// A packet with a segment comes, which was captured at this time, in nanoseconds since 1970-01-01 00:00:00 UTC; `None` where the
    /// file does not say when. What its segment delivers comes next.
    Packet {
        time: Option<u64>,
    },
    /// The connection with this number begins.
    New {
        number: u64,
    },
    /// What one of its directions delivers, with its bytes, where there are some.
    Of {
        delivered: Delivery,
        bytes: &'a [u8],
    },
    /// It has left, after all of its bytes that came.
    Left(ConnectionTotals),
}
