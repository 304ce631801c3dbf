// Written by dist/erase from crates/cqlp_tcp_connections/src/side.rt.
//! One direction of a connection, and what was reported of it.

use crate::cqlp_tcp_connections::tally::Tally;
use crate::cqlp_tcp_connections::totals::DirectionTotals;
use crate::cqlp_tcp_reassembly::{Stream, StreamSegment, StreamStep};
use crate::kit_std::alloc::{AllocError};

/// What a stream reports, and after how many bytes and bytes of gaps.
#[derive(Clone, Copy)]
pub(crate) struct SideStep {
    pub(crate) at: u64,
    pub(crate) step: StreamStep,
}

/// One direction of a connection.
pub(crate) struct Side {
    stream: Stream,
    totals: Tally,
}

impl Side {
    /// A direction of which nothing was reported. It takes no memory.
    pub(crate) fn new() -> Self {
        Side {
            stream: Stream::new(),
            totals: Tally::new(),
        }
    }

    /// What was reported.
    pub(crate) fn totals(&self) -> DirectionTotals {
        self.totals.totals()
    }

    /// How much it holds of what came early, in the measure of `Stream::size`.
    pub(crate) fn size(&self) -> usize {
        self.stream.size()
    }

    /// Counts a segment.
    pub(crate) fn count_segment(&mut self) {
        self.totals.count_segment();
    }

    /// The next report of a segment of this direction, which may hold this much in all.
    #[inline]
    pub(crate) fn take(
        &mut self,
        segment: &StreamSegment<'_>,
        room: usize,
    ) -> Result<SideStep, AllocError> {
        let at = self.totals.position();
        let step = self.stream.take(segment, room)?;
        if let StreamStep::Began { syn } = step {
            self.totals.note_begin(syn, segment.control.sequence);
        }
        self.totals.note(step);
        Ok(SideStep { at, step })
    }

    /// The next report for an acknowledgement of the other direction.
    pub(crate) fn acknowledge(&mut self, number: u32) -> SideStep {
        let at = self.totals.position();
        let step = self.stream.acknowledge(number);
        self.totals.note(step);
        SideStep { at, step }
    }

    /// That an acknowledgement of the other direction brings nothing, as `Stream` says it.
    #[inline]
    pub(crate) fn ignores_acknowledgements(&self) -> bool {
        self.stream.ignores_acknowledgements()
    }

    /// That `take` of a segment brings nothing, as `Stream` says it.
    #[inline]
    pub(crate) fn is_behind(&self, segment: &StreamSegment<'_>) -> bool {
        self.stream.is_behind(segment)
    }

    /// The next report where no more segments come.
    pub(crate) fn close(&mut self) -> SideStep {
        let at = self.totals.position();
        let step = self.stream.close();
        self.totals.note(step);
        SideStep { at, step }
    }

    /// The next bytes, which came before.
    pub(crate) fn held(&self) -> &[u8] {
        self.stream.held()
    }

    /// Passes the next bytes that came before.
    pub(crate) fn pass_held(&mut self) {
        self.totals.count_bytes(self.stream.held().len());
        self.stream.pass_held();
    }
}
