// Written by dist/erase from crates/cqlp_capture_exchanges/src/connection.rt.
//! Which connection it is of which something is reported.

use crate::cqlp_tcp_connections::Ends;

/// A connection: its number and its ends.
#[derive(Clone, Copy)]
pub(crate) struct Connection {
    pub(crate) number: u64,
    pub(crate) ends: Ends,
}
