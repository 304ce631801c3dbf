// Written by dist/erase from crates/cqlp_capture_events/src/table.rt.
//! The connections that are watched.

use crate::cqlp_capture_events::limits::OPEN_FRAMES;
use crate::cqlp_capture_events::slot::Slot;
use crate::cqlp_capture_frames::ReportFault;
use crate::cqlp_capture_streams::newest_first;
use crate::cqlp_tcp_connections::Delivery;
use crate::cqlp_text::{Pen, TextWriter};
use crate::kit_std::alloc::{AllocError};
use crate::kit_std::collections::BTreeMap;

/// The connections that are watched, by their numbers, the newest first. Memory is taken for each as it begins, and for the decoder of a frame as that does, and
/// is given back.
pub(crate) struct Table {
    slots: BTreeMap<u64, Slot>,
    /// How many directions read a frame.
    reading: usize,
    /// How many frames were not read, as there was no room for their decoders.
    unread: u64,
}

impl Table {
    /// No connections.
    pub(crate) fn new() -> Result<Self, AllocError> {
        let slots = BTreeMap::new();
        Ok(Table {
            slots,
            reading: 0,
            unread: 0,
        })
    }

    /// How many frames were not read.
    pub(crate) fn unread(&self) -> u64 {
        self.unread
    }

    /// The connection with this number begins. Where memory is refused, nothing changes.
    pub(crate) fn begin(&mut self, number: u64) -> Result<(), AllocError> {
        let slot = Slot::new()?;
        match self.slots.insert(newest_first(number), slot) {
            Ok(_) => Ok(()),
            Err(_) => Err(AllocError),
        }
    }

    /// Takes what the streams of a connection deliver, with its bytes.
    pub(crate) fn hear<P: Pen>(
        &mut self,
        delivered: &Delivery,
        bytes: &[u8],
        writer: &mut TextWriter<P>,
    ) -> Result<(), ReportFault> {
        match self.slots.get_mut(&newest_first(delivered.number)) {
            Some(slot) => hear_in(
                slot,
                &mut self.reading,
                &mut self.unread,
                delivered,
                bytes,
                writer,
            ),
            None => Ok(()),
        }
    }

    /// The connection with this number leaves.
    pub(crate) fn leave(&mut self, number: u64) {
        if let Some(slot) = self.slots.remove(&newest_first(number)) {
            self.reading = reading_after(self.reading, slot.open(), 0);
        }
    }
}

/// Takes what the streams of this connection deliver.
fn hear_in<P: Pen>(
    slot: &mut Slot,
    reading: &mut usize,
    unread: &mut u64,
    delivered: &Delivery,
    bytes: &[u8],
    writer: &mut TextWriter<P>,
) -> Result<(), ReportFault> {
    let before = slot.open();
    let has_room = *reading < OPEN_FRAMES;
    slot.hear(has_room, delivered, bytes, unread, writer)?;
    *reading = reading_after(*reading, before, slot.open());
    Ok(())
}

/// How many directions read a frame where so many did, of which `before` were those of a connection that are `now` so many.
fn reading_after(reading: usize, before: usize, now: usize) -> usize {
    reading.saturating_sub(before).saturating_add(now)
}
