// Written by dist/erase from crates/cqlp_tcp_connections/src/tally.rt.
//! The totals of a direction as they are counted, in 56 bytes.

use crate::cqlp_tcp_connections::totals::{Begin, DirectionTotals, End};
use crate::cqlp_tcp_reassembly::{GapCause, StreamStep};

/// How a direction began.
#[derive(Clone, Copy)]
pub(crate) enum BeginKind {
    Unseen,
    Syn,
    Middle,
}

/// The totals of a direction.
pub(crate) struct Tally {
    segments: u64,
    bytes: u64,
    gaps: u64,
    missing: u64,
    snapped: u64,
    snapped_bytes: u64,
    /// The number of the SYN, or of the first byte from the middle.
    first: u32,
    begin: BeginKind,
    end: End,
}

impl Tally {
    /// Of a direction of which nothing was reported.
    pub(crate) fn new() -> Self {
        Tally {
            segments: 0,
            bytes: 0,
            gaps: 0,
            missing: 0,
            snapped: 0,
            snapped_bytes: 0,
            first: 0,
            begin: BeginKind::Unseen,
            end: End::Open,
        }
    }

    /// What it has counted.
    pub(crate) fn totals(&self) -> DirectionTotals {
        DirectionTotals {
            segments: self.segments,
            bytes: self.bytes,
            gaps: self.gaps,
            missing: self.missing,
            snapped: self.snapped,
            snapped_bytes: self.snapped_bytes,
            begin: self.begin(),
            end: self.end,
        }
    }

    /// How it began.
    fn begin(&self) -> Begin {
        match self.begin {
            BeginKind::Unseen => Begin::Unseen,
            BeginKind::Syn => Begin::Syn(self.first),
            BeginKind::Middle => Begin::Middle(self.first),
        }
    }

    /// How many bytes and bytes of gaps were reported.
    pub(crate) fn position(&self) -> u64 {
        self.bytes
            .saturating_add(self.missing)
            .saturating_add(self.snapped_bytes)
    }

    /// Counts a segment.
    pub(crate) fn count_segment(&mut self) {
        self.segments = self.segments.saturating_add(1);
    }

    /// Counts bytes that were handed on.
    pub(crate) fn count_bytes(&mut self, count: usize) {
        self.bytes = self.bytes.saturating_add(count as u64);
    }

    /// Notes that it begins with a segment of this head, with SYN or without.
    pub(crate) fn note_begin(&mut self, syn: bool, sequence: u32) {
        self.first = sequence;
        self.begin = if syn {
            BeginKind::Syn
        } else {
            BeginKind::Middle
        };
    }

    /// Counts a gap of so many bytes.
    fn pass_over(&mut self, cause: GapCause, length: u64) {
        match cause {
            GapCause::Lost => {
                self.gaps = self.gaps.saturating_add(1);
                self.missing = self.missing.saturating_add(length);
            }
            GapCause::Snapped => {
                self.snapped = self.snapped.saturating_add(1);
                self.snapped_bytes = self.snapped_bytes.saturating_add(length);
            }
        }
    }

    /// Notes what was reported of it.
    pub(crate) fn note(&mut self, step: StreamStep) {
        match step {
            StreamStep::Payload { count, .. } => self.count_bytes(count),
            StreamStep::Gap { length, cause, .. } => self.pass_over(cause, length),
            StreamStep::Ended => self.end = End::Fin,
            StreamStep::Reset => self.end = End::Reset,
            _ => {}
        }
    }
}
