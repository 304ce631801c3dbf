// Written by dist/erase from crates/cqlp_capture_exchanges/src/table.rt.
//! The connections that are watched.

use crate::cqlp_capture_exchanges::connection::Connection;
use crate::cqlp_capture_exchanges::pool::{ExchangeLimits, Pool};
use crate::cqlp_capture_exchanges::report::end_of;
use crate::cqlp_capture_exchanges::reporter::Reporter;
use crate::cqlp_capture_exchanges::slot::Slot;
use crate::cqlp_capture_streams::{StreamsFault, newest_first};
use crate::cqlp_note::Target;
use crate::cqlp_observer::{Missed, WatchRoom};
use crate::cqlp_tcp_connections::{ConnectionTotals, Delivery, Ends};
use crate::kit_std::alloc::{AllocError};
use crate::kit_std::collections::BTreeMap;

/// The connections that are watched, by their numbers, the newest first. Memory is taken for each as it begins, and given back as it leaves.
pub(crate) struct Table {
    slots: BTreeMap<u64, Slot>,
    /// How much of them waits.
    pool: Pool,
    /// What was missed of those that have left.
    missed: Missed,
}

impl Table {
    /// No connections.
    pub(crate) fn new(limits: ExchangeLimits) -> Result<Self, AllocError> {
        let slots = BTreeMap::new();
        Ok(Table {
            slots,
            pool: Pool::new(limits),
            missed: Missed::NONE,
        })
    }

    /// What was missed of the connections that have left.
    pub(crate) fn missed(&self) -> Missed {
        self.missed
    }

    /// The connection with this number begins. Where memory is refused, nothing changes.
    pub(crate) fn begin(&mut self, number: u64) -> Result<(), AllocError> {
        let slot = Slot::new()?;
        match self.slots.insert(newest_first(number), slot) {
            Ok(_) => Ok(()),
            Err(_) => Err(AllocError),
        }
    }

    /// Takes what the streams of a connection deliver while the present packet came at this time, with its bytes.
    pub(crate) fn hear<O: Target>(
        &mut self,
        present: Option<u64>,
        delivered: &Delivery,
        bytes: &[u8],
        reporter: &mut Reporter<O>,
    ) -> Result<(), StreamsFault> {
        match self.slots.get_mut(&newest_first(delivered.number)) {
            Some(slot) => hear_in(slot, &mut self.pool, present, delivered, bytes, reporter),
            None => Ok(()),
        }
    }

    /// A connection leaves, of which this was reported.
    pub(crate) fn leave<O: Target>(
        &mut self,
        totals: &ConnectionTotals,
        reporter: &mut Reporter<O>,
    ) -> Result<(), StreamsFault> {
        match self.slots.remove(&newest_first(totals.number)) {
            Some(slot) => let_leave(slot, &mut self.pool, &mut self.missed, totals, reporter),
            None => Ok(()),
        }
    }
}

/// Takes what the streams of this connection deliver.
fn hear_in<O: Target>(
    slot: &mut Slot,
    pool: &mut Pool,
    present: Option<u64>,
    delivered: &Delivery,
    bytes: &[u8],
    reporter: &mut Reporter<O>,
) -> Result<(), StreamsFault> {
    let old = slot.held();
    let room = pool.room_for(old);
    let heard = slot.hear(present, delivered, room, bytes, reporter);
    pool.exchange(old, slot.held());
    heard
}

/// This connection leaves.
fn let_leave<O: Target>(
    mut slot: Slot,
    pool: &mut Pool,
    missed: &mut Missed,
    totals: &ConnectionTotals,
    reporter: &mut Reporter<O>,
) -> Result<(), StreamsFault> {
    let old = slot.held();
    let room = pool.room_for(old);
    pool.exchange(old, NONE);
    let connection = Connection {
        number: totals.number,
        ends: Ends {
            client: totals.client,
            node: totals.node,
        },
    };
    match slot.end(&connection, room, reporter) {
        Ok(()) => {
            missed.add(&slot.missed());
            slot.let_go(&connection, end_of(totals), reporter)
        }
        Err(fault) => Err(fault),
    }
}

/// Nothing that waits.
const NONE: WatchRoom = WatchRoom {
    messages: 0,
    text: 0,
};
