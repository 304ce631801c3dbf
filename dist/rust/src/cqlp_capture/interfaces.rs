// Written by dist/erase from crates/cqlp_capture/src/interfaces.rt.
//! The interfaces of a section.

use crate::kit_std::prelude::{KitVec, Vec};
use crate::kit_std::alloc::{AllocError};

/// What packets of an interface need of it.
#[derive(Clone, Copy)]
pub(crate) struct KnownInterface {
    /// The link type.
    pub link: u16,
    /// How many bytes of a packet were captured at most, or 0.
    pub snap_length: u32,
    /// How many nanoseconds a unit of its packets' times is; `None` where the times cannot be read.
    pub unit: Option<u32>,
    /// How many seconds are added to its packets' times.
    pub offset: u64,
}

impl KnownInterface {
    /// The interface, if its times cannot be read.
    pub fn untimed(self) -> KnownInterface {
        KnownInterface {
            link: self.link,
            snap_length: self.snap_length,
            unit: None,
            offset: self.offset,
        }
    }
}

/// What becomes of the interfaces of a section.
#[derive(Clone, Copy)]
pub(crate) enum TableChange {
    Keep,
    /// A section begins.
    Forget,
    Add(KnownInterface),
}

/// The interfaces of a section, in memory that is taken once: its capacity is the room, for as long as it lives.
pub(crate) struct InterfaceTable {
    entries: Vec<KnownInterface>,
    room: usize,
}

impl InterfaceTable {
    /// With room for this many interfaces. This is the one call that takes memory.
    #[cfg_attr(not(feature = "cli"), inline)]
    pub fn new(room: usize) -> Result<Self, AllocError> {
        let entries = Vec::kit_with_capacity(room)?;
        Ok(InterfaceTable { entries, room })
    }

    /// The interfaces, of which the first has the number 0.
    #[inline]
    #[must_use]
    pub fn known(&self) -> &[KnownInterface] {
        self.entries.as_slice()
    }

    /// How many interfaces its memory has places for.
    #[cfg_attr(not(feature = "cli"), inline)]
    #[must_use]
    pub fn capacity(&self) -> usize {
        self.entries.capacity()
    }

    /// Makes this change.
    #[inline]
    pub(crate) fn apply(&mut self, change: TableChange) {
        match change {
            TableChange::Keep => {}
            TableChange::Forget => self.entries.clear(),
            TableChange::Add(interface) => self.entries.push_reserved(interface),
        }
    }
}
