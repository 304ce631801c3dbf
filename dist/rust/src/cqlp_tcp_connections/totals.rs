// Written by dist/erase from crates/cqlp_tcp_connections/src/totals.rt.
//! What was reported of connections, in numbers.

use crate::cqlp_tcp_segment::Endpoint;

/// Whether the begin of a direction was reported.
#[derive(Clone, Copy)]
pub enum Begin {
    /// Nothing of it was.
    Unseen,
    /// It began with a SYN of this number.
    Syn(u32),
    /// It began from the middle, where its first byte, or FIN, had this number.
    Middle(u32),
}

/// Whether the end of a direction was reported.
#[derive(Clone, Copy, PartialEq, Eq)]
pub enum End {
    /// It was not.
    Open,
    /// It ended with FIN.
    Fin,
    /// It ended with RST.
    Reset,
}

/// What was reported of one direction of a connection. A number stays at 2^64 - 1 once it is there.
#[derive(Clone, Copy)]
pub struct DirectionTotals {
    /// Segments, with those of which nothing was reported.
    pub segments: u64,
    /// Bytes that were handed on.
    pub bytes: u64,
    /// Gaps of bytes that no segment carried in time.
    pub gaps: u64,
    /// The bytes of those gaps.
    pub missing: u64,
    /// Gaps of bytes that the snap length cut off.
    pub snapped: u64,
    /// The bytes of those gaps.
    pub snapped_bytes: u64,
    pub begin: Begin,
    pub end: End,
}

/// What was reported of a connection.
#[derive(Clone, Copy)]
pub struct ConnectionTotals {
    /// Connections are numbered from 1 on, in the order in which their first segments came.
    pub number: u64,
    pub client: Endpoint,
    pub node: Endpoint,
    pub requests: DirectionTotals,
    pub responses: DirectionTotals,
}

/// What a table has counted. A number stays at 2^64 - 1 once it is there.
#[derive(Clone, Copy)]
pub struct ConnectionCounts {
    /// Connections of which a segment was seen.
    pub connections: u64,
    /// How often the connection that was silent longest had to leave, since the table was full.
    pub crowded: u64,
    /// Segments of which neither port is asked for.
    pub foreign: u64,
    /// Gaps that were declared since there was no room for more bytes that come early.
    pub given_up: u64,
}

impl ConnectionCounts {
    /// Of a table that has counted nothing.
    pub(crate) const NONE: ConnectionCounts = ConnectionCounts {
        connections: 0,
        crowded: 0,
        foreign: 0,
        given_up: 0,
    };
}

impl DirectionTotals {
    /// How many bytes and bytes of gaps were reported.
    pub fn position(&self) -> u64 {
        self.bytes
            .saturating_add(self.missing)
            .saturating_add(self.snapped_bytes)
    }
}
