// Written by dist/erase from crates/cqlp_capture_exchanges/src/pool.rt.
//! How much of all connections together waits.

use crate::cqlp_observer::WatchRoom;

/// How much of all connections together waits at most. Where there is no room for more, what is left out is counted.
#[derive(Clone, Copy)]
pub struct ExchangeLimits {
    /// Messages that wait for the other of their exchange.
    pub open: usize,
    /// First bytes of these messages, of each at most 256.
    pub text: usize,
}

impl ExchangeLimits {
    /// 262,144 messages, and 7 MiB.
    pub const DEFAULT: ExchangeLimits = ExchangeLimits {
        open: 262_144,
        text: 7_340_032,
    };
}

/// What may wait in all, and what does: the sum of what waits on each connection.
pub(crate) struct Pool {
    limits: ExchangeLimits,
    held: WatchRoom,
}

impl Pool {
    /// Nothing waits.
    pub(crate) fn new(limits: ExchangeLimits) -> Self {
        Pool {
            limits,
            held: WatchRoom {
                messages: 0,
                text: 0,
            },
        }
    }

    /// What may wait in all on a connection on which so much waits: what the others leave.
    pub(crate) fn room_for(&self, own: WatchRoom) -> WatchRoom {
        WatchRoom {
            messages: (self.limits.open).saturating_sub(
                self.held.messages.saturating_sub(own.messages),
            ),
            text: (self.limits.text).saturating_sub(self.held.text.saturating_sub(own.text)),
        }
    }

    /// On a connection on which `old` waited `new` does.
    pub(crate) fn exchange(&mut self, old: WatchRoom, new: WatchRoom) {
        self.held = WatchRoom {
            messages: (self.held.messages)
                .saturating_sub(old.messages)
                .saturating_add(new.messages),
            text: (self.held.text)
                .saturating_sub(old.text)
                .saturating_add(new.text),
        };
    }
}
