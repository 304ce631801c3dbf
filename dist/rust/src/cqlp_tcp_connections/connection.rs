// Written by dist/erase from crates/cqlp_tcp_connections/src/connection.rt.
//! One connection.

use crate::cqlp_tcp_connections::delivery::{Admission, WayStep};
use crate::cqlp_tcp_connections::ends::{Ends, Way};
use crate::cqlp_tcp_connections::side::{Side, SideStep};
use crate::cqlp_tcp_connections::totals::{Begin, ConnectionTotals, DirectionTotals, End};
use crate::cqlp_tcp_reassembly::{Control, StreamSegment, StreamStep};
use crate::cqlp_tcp_segment::{Segment, SegmentHead};
use crate::kit_std::alloc::{AllocError};

/// A connection: its number, and both directions.
pub(crate) struct Connection {
    number: u64,
    requests: Side,
    responses: Side,
}

impl Connection {
    /// A connection of which nothing was reported. It takes no memory.
    pub(crate) fn new(number: u64) -> Result<Self, AllocError> {
        Ok(Connection {
            number,
            requests: Side::new(),
            responses: Side::new(),
        })
    }

    pub(crate) fn number(&self) -> u64 {
        self.number
    }

    /// How much both directions hold of what came early.
    pub(crate) fn size(&self) -> usize {
        self.requests.size() + self.responses.size()
    }

    /// Whether a segment that goes this way begins another connection between the same ends.
    pub(crate) fn begins_anew(&self, way: Way, head: &SegmentHead) -> bool {
        if !head.flags.syn {
            return false;
        }
        let own = self.totals_of(way);
        let others = self.totals_of(way.other());
        !own.may_begin(&others, head.sequence)
    }

    fn totals_of(&self, way: Way) -> DirectionTotals {
        match way {
            Way::Requests => self.requests.totals(),
            Way::Responses => self.responses.totals(),
        }
    }

    /// What was reported of it, which is between these ends.
    pub(crate) fn totals(&self, ends: &Ends) -> ConnectionTotals {
        ConnectionTotals {
            number: self.number,
            client: ends.client,
            node: ends.node,
            requests: self.requests.totals(),
            responses: self.responses.totals(),
        }
    }

    /// What a segment that goes this way is to the table: it is counted, unless it begins another connection between the same ends.
    pub(crate) fn see(&mut self, way: Way, head: &SegmentHead) -> Admission {
        let number = self.number;
        if self.begins_anew(way, head) {
            return Admission::Crowded {
                number,
                is_full: false,
            };
        }
        self.count_segment(way);
        Admission::Taken {
            number,
            way,
            is_new: false,
        }
    }

    /// Counts a segment that goes this way.
    pub(crate) fn count_segment(&mut self, way: Way) {
        match way {
            Way::Requests => self.requests.count_segment(),
            Way::Responses => self.responses.count_segment(),
        }
    }

    /// The next report of a segment that goes this way, captured then: first its acknowledgement, of the other way. Its own way may
    /// hold this much in all. Nothing is reported of its own where memory is refused.
    pub(crate) fn pull(
        &mut self,
        way: Way,
        segment: &Segment<'_>,
        time: Option<u64>,
        room: usize,
    ) -> Result<Option<WayStep>, AllocError> {
        let head = &segment.head;
        if head.flags.ack {
            let delivered = self.acknowledge(way.other(), head.acknowledgement);
            if delivered.is_some() {
                return Ok(delivered);
            }
        }
        let own = StreamSegment {
            control: control_of(head, segment.missing),
            payload: segment.payload,
            time,
        };
        self.take(way, &own, room)
    }

    /// That `pull` of a segment which goes this way reports nothing and changes nothing, since all of it is behind. Where this says no,
    /// that may be so too.
    #[inline]
    pub(crate) fn is_done(&self, way: Way, segment: &Segment<'_>, time: Option<u64>) -> bool {
        let own = StreamSegment {
            control: control_of(&segment.head, segment.missing),
            payload: segment.payload,
            time,
        };
        self.is_behind(way, &own) && self.is_answered(way, &segment.head)
    }

    /// That the acknowledgement of a segment which goes this way reports nothing and changes nothing.
    #[inline]
    fn is_answered(&self, way: Way, head: &SegmentHead) -> bool {
        if head.flags.ack {
            self.ignores_acknowledgements(way.other())
        } else {
            true
        }
    }

    #[inline]
    fn is_behind(&self, way: Way, segment: &StreamSegment<'_>) -> bool {
        match way {
            Way::Requests => self.requests.is_behind(segment),
            Way::Responses => self.responses.is_behind(segment),
        }
    }

    #[inline]
    fn ignores_acknowledgements(&self, way: Way) -> bool {
        match way {
            Way::Requests => self.requests.ignores_acknowledgements(),
            Way::Responses => self.responses.ignores_acknowledgements(),
        }
    }

    /// The next report of a segment that goes this way.
    #[inline]
    fn take(
        &mut self,
        way: Way,
        segment: &StreamSegment<'_>,
        room: usize,
    ) -> Result<Option<WayStep>, AllocError> {
        let step = match way {
            Way::Requests => self.requests.take(segment, room)?,
            Way::Responses => self.responses.take(segment, room)?,
        };
        Ok(deliver(self.number, way, step))
    }

    /// The next report of this way for an acknowledgement.
    fn acknowledge(&mut self, way: Way, number: u32) -> Option<WayStep> {
        let step = match way {
            Way::Requests => self.requests.acknowledge(number),
            Way::Responses => self.responses.acknowledge(number),
        };
        deliver(self.number, way, step)
    }

    /// The next report where no more segments come: first of the requests.
    pub(crate) fn close(&mut self) -> Option<WayStep> {
        let delivered = self.close_way(Way::Requests);
        if delivered.is_some() {
            return delivered;
        }
        self.close_way(Way::Responses)
    }

    fn close_way(&mut self, way: Way) -> Option<WayStep> {
        let step = match way {
            Way::Requests => self.requests.close(),
            Way::Responses => self.responses.close(),
        };
        deliver(self.number, way, step)
    }

    /// The next bytes of this way, which came before.
    pub(crate) fn held(&self, way: Way) -> &[u8] {
        match way {
            Way::Requests => self.requests.held(),
            Way::Responses => self.responses.held(),
        }
    }

    /// Passes them.
    pub(crate) fn pass_held(&mut self, way: Way) {
        match way {
            Way::Requests => self.requests.pass_held(),
            Way::Responses => self.responses.pass_held(),
        }
    }
}

impl DirectionTotals {
    /// Whether a SYN of this number is of this direction, beside that of the other way.
    fn may_begin(&self, other: &DirectionTotals, sequence: u32) -> bool {
        match self.begin {
            Begin::Syn(number) => number == sequence,
            Begin::Middle(number) => number == sequence.wrapping_add(1),
            Begin::Unseen => {
                let is_open = self.end == End::Open && other.end == End::Open;
                is_open && !matches!(other.begin, Begin::Middle(_))
            }
        }
    }
}

/// What a header says of a segment, of whose payload so many bytes were not captured.
fn control_of(head: &SegmentHead, missing: usize) -> Control {
    Control {
        sequence: head.sequence,
        syn: head.flags.syn,
        fin: head.flags.fin,
        rst: head.flags.rst,
        missing: (missing % 0x1_0000_0000) as u32,
    }
}

/// What is reported of this way of the connection with this number, if that is not `Done`.
fn deliver(number: u64, way: Way, step: SideStep) -> Option<WayStep> {
    if matches!(step.step, StreamStep::Done) {
        return None;
    }
    Some(WayStep {
        number,
        way,
        at: step.at,
        step: step.step,
    })
}
