// Written by dist/erase from crates/cqlp_observer/src/paired.rt.
//! What is reported of requests and responses.

use crate::cqlp_observer::message::SeenMessage;

/// What is reported of a request, a response, or both.
#[derive(Clone, Copy, Debug, PartialEq, Eq)]
pub enum Paired<T> {
    /// A request and its response, the one next to the other under their stream id. The response came first only where the packets of a
    /// capture are not in the order of their times, and the request was then begun no later.
    Exchange {
        /// The message of the client.
        request: SeenMessage<T>,
        /// The message of the node under the same stream id. Section 2.3 of `native_protocol_v4.spec`.
        response: SeenMessage<T>,
    },
    /// A request whose response was not seen: another request came under its stream id, or there was no room for it to wait, or the connection
    /// ended.
    Unanswered {
        /// The message of the client, whose stream id may be in use again.
        request: SeenMessage<T>,
    },
    /// A response whose request was not seen, neither before it nor after: another response came under its stream id, or a request that was
    /// begun later, or there was no room for it to wait, or the connection ended.
    Unasked {
        /// The message of the node, which no request waits for under its stream id.
        response: SeenMessage<T>,
    },
    /// An event that the node pushed.
    Event {
        /// The EVENT, whose stream id is -1. Section 4.2.6 of `native_protocol_v4.spec`.
        event: SeenMessage<T>,
    },
}

impl<T> Paired<T> {
    /// Of a message that is in no exchange.
    #[inline(always)]
    pub(crate) fn alone(message: SeenMessage<T>) -> Self {
        if message.is_request() {
            Paired::Unanswered { request: message }
        } else {
            Paired::Unasked { response: message }
        }
    }
}
