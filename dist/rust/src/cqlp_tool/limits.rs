// Written by dist/erase from crates/cqlp_tool/src/limits.rt.
//! What is kept of a capture, by the options.

use crate::cqlp_capture_exchanges::ExchangeLimits;
use crate::cqlp_capture_streams::{Buffering, StreamsLimits};
use crate::cqlp_options::CaptureLimits;
use crate::cqlp_packet_order::OrderLimits;
use crate::cqlp_tcp_connections::ConnectionLimits;

/// So many MiB in bytes.
fn mebibytes(count: u32) -> usize {
    count as usize * 1_048_576
}

/// How many packets wait to be put in order: as many as is given. Else the default of a regular file, and none of any other, as a pipe, since a line would
/// wait for later packets.
fn window_of(given: Option<u32>, buffering: Buffering) -> u32 {
    match (given, buffering) {
        (Some(packets), _) => packets,
        (None, Buffering::Block) => OrderLimits::DEFAULT.packets,
        (None, Buffering::Line) => OrderLimits::OFF.packets,
    }
}

/// What the reading of a capture keeps: of what came early at most 1 MiB for each direction, and packets that are captured at most one
/// second apart, with at most 1.5 MiB, wait to be put in order.
pub(crate) fn streams_limits_of(limits: &CaptureLimits, buffering: Buffering) -> StreamsLimits {
    StreamsLimits {
        connections: ConnectionLimits {
            connections: limits.connections,
            early: mebibytes(limits.early),
            early_each: ConnectionLimits::DEFAULT.early_each,
        },
        order: OrderLimits {
            packets: window_of(limits.order, buffering),
            ..OrderLimits::DEFAULT
        },
    }
}

/// What waits of exchanges.
pub(crate) fn exchange_limits_of(limits: &CaptureLimits) -> ExchangeLimits {
    ExchangeLimits {
        open: limits.open as usize,
        text: mebibytes(limits.text),
    }
}
