// Written by dist/erase from crates/cqlp_capture_exchanges/src/sums.rt.
//! What was reported of requests and responses, in numbers.

use crate::cqlp_capture_exchanges::report::Report;
use crate::cqlp_capture_exchanges::span::is_whole;
use crate::cqlp_observer::{Kept, SeenMessage, Paired};

/// What was reported of requests and responses, whether it was shown or not. A number stays at 2^64 - 1 once it is there.
#[derive(Clone, Copy)]
pub struct ExchangeSums {
    /// Requests with their responses.
    pub exchanges: u64,
    /// Requests whose response was not seen.
    pub unanswered: u64,
    /// Responses whose request was not seen.
    pub unasked: u64,
    pub events: u64,
    /// Messages among these that are not whole: bytes of them were not captured, or did not come.
    pub cut: u64,
}

impl ExchangeSums {
    /// Nothing was reported.
    pub(crate) fn none() -> Self {
        ExchangeSums {
            exchanges: 0,
            unanswered: 0,
            unasked: 0,
            events: 0,
            cut: 0,
        }
    }

    /// Counts what is reported.
    pub(crate) fn count(&mut self, report: &Report<'_>) {
        match report {
            Report::Messages { paired, .. } => self.count_paired(paired),
            Report::Unread { .. } => {}
        }
    }

    fn count_paired(&mut self, exchange: &Paired<Kept>) {
        match exchange {
            Paired::Exchange { request, response } => {
                self.exchanges = self.exchanges.saturating_add(1);
                self.count_message(request);
                self.count_message(response);
            }
            Paired::Unanswered { request } => {
                self.unanswered = self.unanswered.saturating_add(1);
                self.count_message(request);
            }
            Paired::Unasked { response } => {
                self.unasked = self.unasked.saturating_add(1);
                self.count_message(response);
            }
            Paired::Event { event } => {
                self.events = self.events.saturating_add(1);
                self.count_message(event);
            }
        }
    }

    /// Counts a message if it is not whole.
    fn count_message(&mut self, message: &SeenMessage<Kept>) {
        if !is_whole(message.frame.extent) {
            self.cut = self.cut.saturating_add(1);
        }
    }
}
