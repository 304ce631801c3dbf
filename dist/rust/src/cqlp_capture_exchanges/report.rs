// Written by dist/erase from crates/cqlp_capture_exchanges/src/report.rt.
//! What is reported of a connection.

use crate::cqlp_observer::{Kept, Opening, Paired};
use crate::cqlp_tcp_connections::{ConnectionTotals, End};

/// How the connection of a request without a response ended.
#[derive(Clone, Copy)]
pub enum ConnectionEnd {
    /// By RST, in one direction at least.
    Reset,
    /// By FIN, in one direction at least.
    Closed,
    /// It did not, as far as the capture goes.
    Open,
}

/// What is reported of a connection. It lends the messages, which are large.
pub enum Report<'a> {
    /// A request, a response, or both; of those that wait when their connection is finished also how that ended.
    Messages {
        paired: &'a Paired<Kept>,
        end: Option<ConnectionEnd>,
    },
    /// The first bytes of a direction, captured at this time, are no frame of version 4.
    Unread {
        time: Option<u64>,
        opening: Opening,
    },
}

/// How a connection ended, of which this was reported.
pub(crate) fn end_of(totals: &ConnectionTotals) -> ConnectionEnd {
    let (requests, responses) = (totals.requests.end, totals.responses.end);
    if is_reset(requests) || is_reset(responses) {
        ConnectionEnd::Reset
    } else if is_fin(requests) || is_fin(responses) {
        ConnectionEnd::Closed
    } else {
        ConnectionEnd::Open
    }
}

fn is_reset(end: End) -> bool {
    end == End::Reset
}

fn is_fin(end: End) -> bool {
    end == End::Fin
}

/// Whether a direction that begins so has no frames of version 4.
pub(crate) fn is_unread(opening: Opening) -> bool {
    match opening {
        Opening::Frames => false,
        Opening::OtherVersion(_) | Opening::Tls | Opening::Http => true,
    }
}
