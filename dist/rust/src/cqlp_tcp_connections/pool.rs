// Written by dist/erase from crates/cqlp_tcp_connections/src/pool.rt.
//! The connections that are there, and the memory that they share.

use crate::cqlp_tcp_connections::connection::Connection;
use crate::cqlp_tcp_connections::delivery::{Admission, Delivery, between};
use crate::cqlp_tcp_connections::ends::{Ends, Way};
use crate::cqlp_tcp_connections::limits::ConnectionLimits;
use crate::cqlp_tcp_segment::{Segment, SegmentHead};
use crate::lru::{DefaultHasher, LruCache};
use crate::kit_std::alloc::{AllocError};
use core::num::NonZeroUsize;

/// The connections that are there, the one whose segment came last first, and what they hold of what came early.
pub(crate) struct Pool {
    limits: ConnectionLimits,
    cache: LruCache<Ends, Connection, DefaultHasher>,
    /// How much all hold of what came early.
    early: usize,
}

impl Pool {
    /// A pool without connections. It takes memory as they come.
    pub(crate) fn new(limits: ConnectionLimits) -> Result<Self, AllocError> {
        let connections = NonZeroUsize::new(limits.connections as usize).unwrap_or(
            NonZeroUsize::MIN,
        );
        let cache = LruCache::sparse(connections)?;
        Ok(Pool {
            limits,
            cache,
            early: 0,
        })
    }

    /// How many connections there are.
    pub(crate) fn len(&self) -> usize {
        self.cache.len()
    }

    /// Whether there are as many as the limit.
    pub(crate) fn is_full(&self) -> bool {
        self.limits.connections as usize <= self.cache.len()
    }

    /// How much all hold of what came early.
    pub(crate) fn early(&self) -> usize {
        self.early
    }

    /// Brings the connection between these ends to the front, if it is there, and says what a segment that goes this way is to it.
    pub(crate) fn see(&mut self, ends: &Ends, way: Way, head: &SegmentHead) -> Option<Admission> {
        let Some(connection) = self.cache.get_mut(ends) else {
            return None;
        };
        Some(connection.see(way, head))
    }

    /// Brings the last one to the front, which was silent longest.
    pub(crate) fn bring_last(&mut self) {
        if self.cache.len() < 2 {
            return;
        }
        let last = match self.cache.peek_lru() {
            Some((ends, _)) => *ends,
            None => return,
        };
        self.cache.promote(&last);
    }

    /// The first one.
    pub(crate) fn first(&self) -> Option<(&Ends, &Connection)> {
        self.cache.peek_mru()
    }

    /// Puts a connection before the others, between ends that have none. Nothing was reported of it, and a segment went this way.
    pub(crate) fn add(&mut self, ends: Ends, number: u64, way: Way) -> Result<(), AllocError> {
        let mut connection = Connection::new(number)?;
        connection.count_segment(way);
        self.cache.put(ends, connection)?;
        Ok(())
    }

    /// Takes the first one away.
    pub(crate) fn remove_first(&mut self) {
        if let Some((_, first)) = self.cache.pop_mru() {
            self.early -= first.size();
        }
    }

    /// The next report of a segment that goes this way of the first one.
    pub(crate) fn pull(
        &mut self,
        way: Way,
        segment: &Segment<'_>,
        time: Option<u64>,
    ) -> Result<Option<Delivery>, AllocError> {
        let room = self.room();
        let Some(ends) = self.first_ends() else {
            return Ok(None);
        };
        let Some(first) = self.cache.peek_mut(&ends) else {
            return Ok(None);
        };
        let before = first.size();
        let stepped = first.pull(way, segment, time, room);
        let after = first.size();
        self.early = self.early - before + after;
        Ok(between(ends, stepped?))
    }

    /// That `pull` of a segment which goes this way of the first one reports nothing and changes nothing, as `Connection` says it.
    #[inline]
    pub(crate) fn is_done(&self, way: Way, segment: &Segment<'_>, time: Option<u64>) -> bool {
        match self.first() {
            Some((_, first)) => first.is_done(way, segment, time),
            None => false,
        }
    }

    /// The next report of the first one where no more segments of it come.
    pub(crate) fn close(&mut self) -> Option<Delivery> {
        let ends = self.first_ends()?;
        let first = self.cache.peek_mut(&ends)?;
        let before = first.size();
        let step = first.close();
        let after = first.size();
        self.early = self.early - before + after;
        between(ends, step)
    }

    /// The next bytes of this way of the first one, which came before.
    pub(crate) fn held(&self, way: Way) -> &[u8] {
        match self.first() {
            Some((_, first)) => first.held(way),
            None => &[],
        }
    }

    /// Passes them.
    pub(crate) fn pass_held(&mut self, way: Way) {
        let Some(ends) = self.first_ends() else {
            return;
        };
        let Some(first) = self.cache.peek_mut(&ends) else {
            return;
        };
        let before = first.size();
        first.pass_held(way);
        let after = first.size();
        self.early = self.early - before + after;
    }

    /// The ends of the first one.
    fn first_ends(&self) -> Option<Ends> {
        let (ends, _) = self.first()?;
        Some(*ends)
    }

    /// How much a direction may hold of what comes early.
    fn room(&self) -> usize {
        self.limits.early_each.min(self.limits.early - self.early)
    }
}
