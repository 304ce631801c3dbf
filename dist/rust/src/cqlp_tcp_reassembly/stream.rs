// Written by dist/erase from crates/cqlp_tcp_reassembly/src/stream.rt.
//! One direction of a connection.

use crate::cqlp_tcp_reassembly::fin::FinPosition;
use crate::cqlp_tcp_reassembly::run::{EarlyPart, Part, RUN_SIZE, RunSummary, cut};
use crate::cqlp_tcp_reassembly::runs::Runs;
use crate::cqlp_tcp_reassembly::segment::{Place, StreamSegment, next_number};
use crate::cqlp_tcp_reassembly::sequence::{Distance, distance_to};
use crate::cqlp_tcp_reassembly::step::{GapCause, StreamStep};
use crate::kit_std::alloc::{AllocError};

/// How far a stream can go, in bytes.
const LONGEST: u64 = 1 << 62;

/// How far a stream is.
#[derive(Clone, Copy)]
pub(crate) enum Stage {
    Unseen,
    Open,
    Over,
}

/// One direction of a connection: its bytes in order, each once, out of segments that come in whatever order and however often.
///
/// Of each segment `take` is called again and again until it answers `Done`, and so of each acknowledgement of the other side
/// `acknowledge`. Where one of them answers `Held`, `held` lends the bytes, and `pass_held` comes before the next call. A stream
/// has memory only for what came early.
pub struct Stream {
    stage: Stage,
    /// The sequence number of its first byte.
    first: u32,
    /// How many bytes, and bytes of gaps, were reported.
    position: u64,
    runs: Runs,
    /// The position of FIN.
    end: FinPosition,
}

impl Stream {
    /// A stream of which nothing was seen. It has no memory.
    #[cfg_attr(not(feature = "cli"), inline)]
    #[must_use]
    pub fn new() -> Self {
        Stream {
            stage: Stage::Unseen,
            first: 0,
            position: 0,
            runs: Runs::new(),
            end: FinPosition::none(),
        }
    }

    /// The next that a segment brings. What came early is kept while this stream holds at most `room` bytes, as `size` counts
    /// them; else the first hole is reported as lost.
    ///
    /// # Errors
    ///
    /// Memory that is refused. Then nothing changes but that FIN is noted.
    #[inline]
    pub fn take(
        &mut self,
        segment: &StreamSegment<'_>,
        room: usize,
    ) -> Result<StreamStep, AllocError> {
        match self.stage {
            Stage::Over => Ok(StreamStep::Done),
            Stage::Unseen => {
                if segment.control.rst {
                    Ok(self.finish(StreamStep::Reset))
                } else {
                    Ok(self.begin(segment))
                }
            }
            Stage::Open => {
                if segment.control.rst {
                    Ok(self.finish(StreamStep::Reset))
                } else {
                    self.receive(segment, room)
                }
            }
        }
    }

    /// The next that an acknowledgement of the other side brings, which wants this number next: bytes before it that are missing
    /// are lost, if later ones came or FIN did.
    #[cfg_attr(not(feature = "cli"), inline)]
    pub fn acknowledge(&mut self, number: u32) -> StreamStep {
        match self.stage {
            Stage::Over | Stage::Unseen => StreamStep::Done,
            Stage::Open => {
                if let Some(step) = self.settle() {
                    return step;
                }
                let is_lost = self.is_lost(number);
                self.lose_hole(is_lost)
            }
        }
    }

    /// The next where no more segments come: a hole is a gap, if later bytes came or FIN did.
    #[cfg_attr(not(feature = "cli"), inline)]
    pub fn close(&mut self) -> StreamStep {
        match self.stage {
            Stage::Over | Stage::Unseen => StreamStep::Done,
            Stage::Open => {
                if let Some(step) = self.settle() {
                    return step;
                }
                let is_lost = self.knows_hole();
                self.lose_hole(is_lost)
            }
        }
    }

    /// That an acknowledgement of the other side brings nothing and changes nothing, whatever its number: neither bytes that came early
    /// nor FIN are known. Where this says no, that may be so too.
    #[inline]
    #[must_use]
    pub fn ignores_acknowledgements(&self) -> bool {
        match self.stage {
            Stage::Over | Stage::Unseen => true,
            Stage::Open => self.is_plain(),
        }
    }

    /// That `take` of a segment brings nothing and changes nothing, since all of it lies behind, and neither FIN nor bytes that came
    /// early are known. Where this says no, that may be so too.
    #[inline]
    #[must_use]
    pub fn is_behind(&self, segment: &StreamSegment<'_>) -> bool {
        let control = segment.control;
        if !self.is_open() || control.rst || control.fin || !self.is_plain() {
            return false;
        }
        let place = segment.place(self.first, self.position);
        place.to <= place.at
    }

    #[inline]
    fn is_open(&self) -> bool {
        matches!(self.stage, Stage::Open)
    }

    /// Whether it goes on, and neither bytes that came early nor FIN are known.
    #[inline]
    fn is_plain(&self) -> bool {
        self.runs.is_empty() && self.end.get().is_none() && self.position < LONGEST
    }

    /// Forgets all that it has, and gives its memory back: it is a stream of which nothing was seen.
    #[cfg_attr(not(feature = "cli"), inline)]
    pub fn clear(&mut self) {
        self.runs.clear();
        self.stage = Stage::Unseen;
        self.first = 0;
        self.position = 0;
        self.end = FinPosition::none();
    }

    /// Whether it has ended.
    #[cfg_attr(not(feature = "cli"), inline)]
    #[must_use]
    pub fn is_over(&self) -> bool {
        matches!(self.stage, Stage::Over)
    }

    /// What it holds, in bytes: those that came early, and 144 for each part of a segment.
    #[cfg_attr(not(feature = "cli"), inline)]
    #[must_use]
    pub fn size(&self) -> usize {
        self.runs.size()
    }

    /// The bytes that came early and are next.
    #[cfg_attr(not(feature = "cli"), inline)]
    #[must_use]
    pub fn held(&self) -> &[u8] {
        let most = self.stop().saturating_sub(self.position);
        cut(self.runs.bytes_at(self.position), 0, most)
    }

    /// Goes on behind the bytes that `held` lends, if there are any.
    #[cfg_attr(not(feature = "cli"), inline)]
    pub fn pass_held(&mut self) {
        if let Some(run) = self.runs.summary_at(self.position) {
            if run.length > 0 {
                self.pass_run(run.length as u64);
            }
        }
    }

    /// Where it ends: at FIN, or after 2^62 bytes.
    #[cfg_attr(not(feature = "cli"), inline)]
    fn stop(&self) -> u64 {
        match self.end.get() {
            None => LONGEST,
            Some(end) => end.min(LONGEST),
        }
    }

    /// Goes on behind the bytes of the first run, or those that it lacks: this many, but not past the end. How many they are.
    #[cfg_attr(not(feature = "cli"), inline)]
    fn pass_run(&mut self, count: u64) -> u64 {
        let length = count.min(self.stop().saturating_sub(self.position));
        self.position += length;
        self.runs.pass_first();
        length
    }

    /// Ends it, and gives its memory back.
    #[cold]
    #[cfg_attr(not(feature = "cli"), inline)]
    fn finish(&mut self, step: StreamStep) -> StreamStep {
        self.stage = Stage::Over;
        self.runs.clear();
        step
    }

    /// Begins it at a segment with SYN, FIN or bytes.
    #[cold]
    #[cfg_attr(not(feature = "cli"), inline)]
    fn begin(&mut self, segment: &StreamSegment<'_>) -> StreamStep {
        if !segment.begins_stream() {
            return StreamStep::Done;
        }
        self.clear();
        self.stage = Stage::Open;
        self.first = segment.control.first_number();
        StreamStep::Began {
            syn: segment.control.syn,
        }
    }

    /// The end of the stream or what came early, if either is next.
    #[inline]
    fn settle(&mut self) -> Option<StreamStep> {
        if self.stop() <= self.position {
            return Some(self.finish(StreamStep::Ended));
        }
        let run = self.runs.summary_at(self.position)?;
        Some(self.settle_run(run))
    }

    /// The bytes of the first run, or where it has none those that were not captured.
    #[cold]
    #[cfg_attr(not(feature = "cli"), inline)]
    fn settle_run(&mut self, run: RunSummary) -> StreamStep {
        if run.length > 0 {
            return StreamStep::Held {
                time: run.time,
                begins: run.begins,
            };
        }
        StreamStep::Gap {
            length: self.pass_run(run.missing),
            cause: GapCause::Snapped,
            time: run.time,
        }
    }

    /// Notes where FIN lies, if this is the first.
    #[cfg_attr(not(feature = "cli"), inline)]
    fn note_end(&mut self, fin: bool, to: u64) {
        if fin && self.end.get().is_none() {
            self.end = FinPosition::at(to);
        }
    }

    /// The next of a segment without RST.
    #[inline]
    fn receive(
        &mut self,
        segment: &StreamSegment<'_>,
        room: usize,
    ) -> Result<StreamStep, AllocError> {
        let place = segment.place(self.first, self.position);
        self.note_end(segment.control.fin, place.to);
        if let Some(step) = self.settle() {
            return Ok(step);
        }
        let part = self.runs.first_free(place.at, place.to.min(self.stop()));
        self.put_part(segment, place, part, room)
    }

    /// The first part of the segment that no run covers, if there is one.
    #[cfg_attr(not(feature = "cli"), inline)]
    fn put_part(
        &mut self,
        segment: &StreamSegment<'_>,
        place: Place,
        part: Part,
        room: usize,
    ) -> Result<StreamStep, AllocError> {
        if part.to <= part.from {
            Ok(StreamStep::Done)
        } else if part.from == self.position {
            Ok(self.pass_part(segment, place, part))
        } else {
            self.keep_part(segment, place, part, room)
        }
    }

    /// A part of the segment is next: its bytes, or where they end those that were not captured.
    #[cfg_attr(not(feature = "cli"), inline)]
    fn pass_part(&mut self, segment: &StreamSegment<'_>, place: Place, part: Part) -> StreamStep {
        let most = part.to - part.from;
        let captured = segment.payload.len().saturating_sub(place.skip);
        let count = most.min(captured as u64);
        if count > 0 {
            self.position += count;
            return StreamStep::Payload {
                from: place.skip,
                count: count as usize,
            };
        }
        self.position += most;
        StreamStep::Gap {
            length: most,
            cause: GapCause::Snapped,
            time: segment.time,
        }
    }

    /// A part of the segment came early. It is kept where there is room; else the first hole is lost.
    #[cold]
    #[cfg_attr(not(feature = "cli"), inline)]
    fn keep_part(
        &mut self,
        segment: &StreamSegment<'_>,
        place: Place,
        part: Part,
        room: usize,
    ) -> Result<StreamStep, AllocError> {
        let skip = place.skip.saturating_add((part.from - place.at) as usize);
        let bytes = cut(segment.payload, skip, part.to - part.from);
        let left = room.saturating_sub(self.runs.size());
        if left < bytes.len() + RUN_SIZE {
            let end = self.runs.first_at(part.from);
            return Ok(self.lose(end));
        }
        let begins = place.skip == 0 && part.from == place.at;
        let time = segment.time;
        self.runs.insert(EarlyPart {
            part,
            bytes,
            begins,
            time,
        })?;
        Ok(StreamStep::Kept)
    }

    /// The bytes up to this position are lost.
    #[cfg_attr(not(feature = "cli"), inline)]
    fn lose(&mut self, end: u64) -> StreamStep {
        let length = end.saturating_sub(self.position);
        self.position += length;
        StreamStep::Gap {
            length,
            cause: GapCause::Lost,
            time: None,
        }
    }

    /// Whether the end of a hole at the position is known.
    #[cfg_attr(not(feature = "cli"), inline)]
    fn knows_hole(&self) -> bool {
        !self.runs.is_empty() || self.end.get().is_some()
    }

    /// Whether the other side has all bytes of the hole.
    #[cfg_attr(not(feature = "cli"), inline)]
    fn is_lost(&self, number: u32) -> bool {
        if !self.knows_hole() {
            return false;
        }
        let hole = self
            .runs
            .first_at(self.stop())
            .saturating_sub(self.position);
        match distance_to(number, next_number(self.first, self.position)) {
            Distance::Ahead(n) => hole <= u64::from(n),
            Distance::Behind(_) => false,
        }
    }

    /// The hole at the position is lost, if it is.
    #[cfg_attr(not(feature = "cli"), inline)]
    fn lose_hole(&mut self, is_lost: bool) -> StreamStep {
        if is_lost {
            let end = self.runs.first_at(self.stop());
            self.lose(end)
        } else {
            StreamStep::Done
        }
    }
}
