// Written by dist/erase from crates/cqlp_tcp_connections/src/table.rt.
//! The table of connections.

use crate::kit_host::prelude::{KitVec, Vec};
use crate::cqlp_tcp_connections::delivery::{Admission, Delivery, Departure};
use crate::cqlp_tcp_connections::ends::{Way, ends_of, first_way};
use crate::cqlp_tcp_connections::limits::{ConnectionLimits, NewConnectionsError};
use crate::cqlp_tcp_connections::pool::Pool;
use crate::cqlp_tcp_connections::ports::PortCounts;
use crate::cqlp_tcp_connections::totals::ConnectionCounts;
use crate::cqlp_tcp_reassembly::{GapCause, StreamStep};
use crate::cqlp_tcp_segment::{Segment, SegmentHead};
use crate::kit_std::alloc::{AllocError};

/// The connections of a capture, of which there are at most as many at one time as the caller's limit says.
///
/// Of each segment `take` says whose it is, and then `pull`, again and again until it says `None`, what it hands on. Where it reports
/// `Held`, `held` lends the bytes, and `pass_held` comes before the next call. Where a connection has to leave first, `leave` reports what
/// it still has, until it says `Left`. At the end of the file `finish` does so for all that are there, until it says `Empty`.
///
/// Memory is taken as connections and early bytes come, and given back. A connection that holds nothing takes less than 300 bytes.
pub struct Connections {
    ports: Vec<u16>,
    pool: Pool,
    counts: ConnectionCounts,
    /// For each port, how many segments had it of which neither port is asked for.
    foreign: PortCounts,
    /// Whether the first connection has begun to leave.
    leaving: bool,
}

impl Connections {
    /// A table without connections, for nodes that listen on one of these ports. It takes 512 KiB, to count segments by port.
    ///
    /// # Errors
    ///
    /// A limit that is out of range, and memory that is refused.
    pub fn new(
        limits: ConnectionLimits,
        ports: &[u16],
    ) -> Result<Self, NewConnectionsError> {
        if !limits.is_in_range() {
            return Err(NewConnectionsError::BadLimits);
        }
        match Self::with_room(limits, ports) {
            Ok(table) => Ok(table),
            Err(AllocError) => Err(NewConnectionsError::NoMemory),
        }
    }

    fn with_room(limits: ConnectionLimits, ports: &[u16]) -> Result<Self, AllocError> {
        let ports = Vec::from_slice(ports)?;
        let foreign = PortCounts::new()?;
        let pool = Pool::new(limits)?;
        Ok(Connections {
            ports,
            pool,
            counts: ConnectionCounts::NONE,
            foreign,
            leaving: false,
        })
    }

    /// Whose a segment is.
    ///
    /// It is of a connection if one of its ports is asked for. That end is the node; if both are, the first segment goes to it, unless it has
    /// SYN and ACK. A SYN begins another connection between the same ends, if its direction began with another number; or has
    /// not begun, where a direction has ended or the other one began from the middle.
    ///
    /// # Errors
    ///
    /// Memory that is refused for a connection that begins. Then nothing changes.
    pub fn take(&mut self, head: &SegmentHead) -> Result<Admission, AllocError> {
        let Some(way) = first_way(&self.ports, head) else {
            self.go_by(head);
            return Ok(Admission::Foreign);
        };
        if let Some(admission) = self.pool.see(&ends_of(way, head), way, head) {
            return Ok(admission);
        }
        let turned = way.other();
        if let Some(admission) = self.pool.see(&ends_of(turned, head), turned, head) {
            return Ok(admission);
        }
        if self.pool.is_full() {
            Ok(self.crowd())
        } else {
            self.begin(way, head)
        }
    }

    /// Whether one of a segment's ports is asked for, so that it is of a connection.
    pub fn asks_for(&self, head: &SegmentHead) -> bool {
        first_way(&self.ports, head).is_some()
    }

    /// The next report of the segment that was taken, and was captured then. First its acknowledgement reports of the other way gaps and
    /// bytes that were held behind them; then its own bytes, and where its own way begins and ends. `None` once all is reported,
    /// and of a segment of another connection than the one that was taken last.
    ///
    /// A direction holds what comes early while all hold no more than the limit, and it no more than is left and than its own limit.
    ///
    /// # Errors
    ///
    /// Memory that is refused for what comes early. Then nothing changes but that FIN is noted.
    pub fn pull(
        &mut self,
        segment: &Segment<'_>,
        time: Option<u64>,
    ) -> Result<Option<Delivery>, AllocError> {
        let Some(way) = self.way_of_first(&segment.head) else {
            return Ok(None);
        };
        let delivered = self.pool.pull(way, segment, time)?;
        if gives_up(way, &delivered) {
            self.counts.given_up = self.counts.given_up.saturating_add(1);
        }
        Ok(delivered)
    }

    /// That the next `pull` of the segment that was taken says `None`, and changes nothing. Where this says no, that may be so too. It is
    /// for after its payload, of which mostly nothing is left.
    pub fn is_done(&self, segment: &Segment<'_>, time: Option<u64>) -> bool {
        match self.way_of_first(&segment.head) {
            Some(way) => self.pool.is_done(way, segment, time),
            None => false,
        }
    }

    /// The bytes of `Held`: the next of this way of the connection that was reported of last.
    pub fn held(&self, way: Way) -> &[u8] {
        self.pool.held(way)
    }

    /// Goes on behind the bytes that `held` lends.
    pub fn pass_held(&mut self, way: Way) {
        self.pool.pass_held(way);
    }

    /// The next report of the connection that has to leave: what it still holds, a hole before it as a gap, first of the
    /// requests. At last that it has left.
    pub fn leave(&mut self) -> Departure {
        if let Some(delivered) = self.pool.close() {
            self.leaving = true;
            return Departure::Delivery(delivered);
        }
        let totals = match self.pool.first() {
            Some((ends, first)) => first.totals(ends),
            None => return Departure::Empty,
        };
        self.pool.remove_first();
        self.leaving = false;
        Departure::Left(totals)
    }

    /// At the end of the file: the next report of the connection that was silent longest, which leaves. `Empty` once all have
    /// left.
    pub fn finish(&mut self) -> Departure {
        if !self.leaving {
            self.pool.bring_last();
        }
        self.leave()
    }

    /// What was counted.
    pub fn counts(&self) -> ConnectionCounts {
        self.counts
    }

    /// Of the segments of which neither port is asked for, the three ports that most had, and how many; of ports with as many the lower
    /// one first. 0 with 0, where there are fewer.
    pub fn busiest(&self) -> [(u16, u64); 3] {
        self.foreign.busiest()
    }

    /// How many connections there are: at most as many as the limit.
    pub fn len(&self) -> usize {
        self.pool.len()
    }

    /// How much all directions hold of what came early: at most as much as the limit.
    pub fn early(&self) -> usize {
        self.pool.early()
    }

    /// Whether there are none.
    pub fn is_empty(&self) -> bool {
        self.pool.len() == 0
    }

    /// Counts a segment of which neither port is asked for.
    fn go_by(&mut self, head: &SegmentHead) {
        self.counts.foreign = self.counts.foreign.saturating_add(1);
        self.foreign.count(head);
    }

    /// Begins a connection with a segment that goes this way.
    fn begin(&mut self, way: Way, head: &SegmentHead) -> Result<Admission, AllocError> {
        let number = self.counts.connections.saturating_add(1);
        self.pool.add(ends_of(way, head), number, way)?;
        self.counts.connections = number;
        Ok(Admission::Taken {
            number,
            way,
            is_new: true,
        })
    }

    /// Has the connection leave that was silent longest.
    fn crowd(&mut self) -> Admission {
        self.pool.bring_last();
        let Some((_, first)) = self.pool.first() else {
            return Admission::Foreign;
        };
        let number = first.number();
        self.counts.crowded = self.counts.crowded.saturating_add(1);
        Admission::Crowded {
            number,
            is_full: true,
        }
    }

    /// Which way a segment goes, if it is of the first connection.
    #[inline(always)]
    fn way_of_first(&self, head: &SegmentHead) -> Option<Way> {
        let (ends, _) = self.pool.first()?;
        ends.way_of(head)
    }
}

/// Whether the report of a segment of this way is a gap of its own way, which is declared where there is no room.
fn gives_up(way: Way, delivered: &Option<Delivery>) -> bool {
    match delivered {
        Some(delivered) => {
            let is_lost = matches!(
                delivered.step,
                StreamStep::Gap {
                    cause: GapCause::Lost,
                    ..
                }
            );
            is_lost && delivered.way == way
        }
        None => false,
    }
}
