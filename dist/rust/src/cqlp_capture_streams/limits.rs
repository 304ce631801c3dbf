// Written by dist/erase from crates/cqlp_capture_streams/src/limits.rt.
//! The limits that a caller sets.

use crate::cqlp_packet_order::OrderLimits;
use crate::cqlp_tcp_connections::ConnectionLimits;

/// What the reading of a capture keeps at most.
#[derive(Clone, Copy)]
pub struct StreamsLimits {
    pub connections: ConnectionLimits,
    /// The window in which packets are put in order.
    pub order: OrderLimits,
}

impl StreamsLimits {
    /// The limits where none are given.
    pub const DEFAULT: StreamsLimits = StreamsLimits {
        connections: ConnectionLimits::DEFAULT,
        order: OrderLimits::DEFAULT,
    };
}
