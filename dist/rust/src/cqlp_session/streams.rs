// Written by dist/erase from crates/cqlp_session/src/streams.rt.
//! The stream ids of a client.

use crate::kit_std::prelude::{Vec};
use crate::cqlp_session::kind::RequestKind;
use crate::cqlp_session::{slots, stream_ids};
use crate::kit_std::alloc::{AllocError};

/// A request whose reply has not come.
#[derive(Clone, Copy)]
pub struct OpenRequest {
    /// The place of the request among all that the core began.
    pub number: u64,
    pub kind: RequestKind,
    pub cancelled: bool,
}

/// The request that is open under each id, and which ids are free.
pub(crate) struct Streams {
    slots: Vec<Option<OpenRequest>>,
    /// A bit for each id, set where it is free.
    free: Vec<u64>,
}

impl Streams {
    /// Ids from 0 on, all free.
    #[cfg_attr(not(feature = "cli"), inline)]
    pub(crate) fn new(len: u16) -> Result<Streams, AllocError> {
        let len = len as usize;
        let slots = slots::empty(len)?;
        let free = stream_ids::all(len)?;
        Ok(Streams { slots, free })
    }

    /// The request that is open under this id.
    #[cfg_attr(not(feature = "cli"), inline)]
    pub(crate) fn under(&self, id: i16) -> Option<OpenRequest> {
        slots::under(&self.slots, id)
    }

    /// The least id that is free.
    #[cfg_attr(not(feature = "cli"), inline)]
    pub(crate) fn least_free(&self) -> Option<i16> {
        let place = stream_ids::first(&self.free)?;
        if place < self.slots.len() {
            Some(place as i16)
        } else {
            None
        }
    }

    /// Opens a request under this id, or frees it.
    #[cfg_attr(not(feature = "cli"), inline)]
    pub(crate) fn put(&mut self, id: i16, what: Option<OpenRequest>) {
        let Some(place) = slots::index_of(id) else {
            return;
        };
        if place >= self.slots.len() {
            return;
        }
        self.slots[place] = what;
        match what {
            Some(_) => stream_ids::clear(&mut self.free, place),
            None => stream_ids::set(&mut self.free, place),
        }
    }
}
