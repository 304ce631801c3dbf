// Written by dist/erase from crates/cqlp_observer/src/stage_record.rt.
//! Where a direction is, in fewer bytes.

use crate::cqlp_observer::frame_record::{parts_of, time_of};
use crate::cqlp_observer::header_front::HeaderFront;
use crate::cqlp_observer::heads::Stage;
use crate::cqlp_observer::message::{Extent, SeenFrame};
use crate::cqlp_note::{Header, Opcode};
use core::mem;

/// Where a direction is, as it is kept: 40 bytes in place of 64.
pub(crate) struct StageRecord {
    parts: StageParts,
}

/// A stage by its parts.
pub(crate) enum StageParts {
    Lost,
    Between,
    Header {
        front: HeaderFront,
        at: u64,
        begun: u64,
        is_begun_known: bool,
    },
    Body {
        passing: PassingFrame,
    },
}

/// A frame whose body passes, and how many bytes of it are still to come.
#[derive(Clone, Copy)]
pub(crate) struct PassingFrame {
    at: u64,
    begun: u64,
    ended: u64,
    length: u32,
    left: u32,
    stream: i16,
    response: bool,
    flags: u8,
    opcode: Opcode,
    extent: Extent,
    is_begun_known: bool,
    is_ended_known: bool,
}

impl StageRecord {
    #[inline(always)]
    pub(crate) fn new(stage: Stage) -> Self {
        let parts = match stage {
            Stage::Lost => StageParts::Lost,
            Stage::Between => StageParts::Between,
            Stage::Header { front, at, begun } => {
                let (is_begun_known, begun) = parts_of(begun);
                StageParts::Header {
                    front,
                    at,
                    begun,
                    is_begun_known,
                }
            }
            Stage::Body { frame, left } => StageParts::Body {
                passing: PassingFrame::new(&frame, left),
            },
        };
        StageRecord { parts }
    }

    /// The stage, in whose place `Lost` is left.
    #[inline(always)]
    pub(crate) fn take(&mut self) -> Stage {
        stage_of(mem::replace(&mut self.parts, StageParts::Lost))
    }

    /// How many bytes are still to come of the body that passes, if one does.
    #[inline(always)]
    pub(crate) fn left(&self) -> Option<u32> {
        match &self.parts {
            StageParts::Body { passing } => Some(passing.left),
            _ => None,
        }
    }

    /// So many bytes come of the body that passes, at this time.
    #[inline(always)]
    pub(crate) fn pass(&mut self, used: u32, time: Option<u64>) {
        if let StageParts::Body { passing } = &mut self.parts {
            let (is_known, ended) = parts_of(time);
            passing.ended = ended;
            passing.is_ended_known = is_known;
            passing.left = passing.left.saturating_sub(used);
        }
    }

    /// So many bytes do not come of the body that passes, before its last one.
    #[inline(always)]
    pub(crate) fn hole(&mut self, length: u32) {
        if let StageParts::Body { passing } = &mut self.parts {
            passing.extent = Extent::Holed;
            passing.left = passing.left.saturating_sub(length);
        }
    }

    #[inline(always)]
    pub(crate) fn is_lost(&self) -> bool {
        matches!(self.parts, StageParts::Lost)
    }

    #[inline(always)]
    pub(crate) fn is_between(&self) -> bool {
        matches!(self.parts, StageParts::Between)
    }
}

/// The stage with these parts.
#[inline(always)]
fn stage_of(parts: StageParts) -> Stage {
    match parts {
        StageParts::Lost => Stage::Lost,
        StageParts::Between => Stage::Between,
        StageParts::Header {
            front,
            at,
            begun,
            is_begun_known,
        } => Stage::Header {
            front,
            at,
            begun: time_of(is_begun_known, begun),
        },
        StageParts::Body { passing } => Stage::Body {
            frame: passing.frame(),
            left: passing.left,
        },
    }
}

impl PassingFrame {
    #[inline(always)]
    fn new(frame: &SeenFrame, left: u32) -> Self {
        let (is_begun_known, begun) = parts_of(frame.begun);
        let (is_ended_known, ended) = parts_of(frame.ended);
        let Header {
            response,
            flags,
            stream,
            opcode,
            length,
        } = frame.header;
        PassingFrame {
            response,
            flags,
            stream,
            opcode,
            length,
            at: frame.at,
            begun,
            ended,
            extent: frame.extent,
            is_begun_known,
            is_ended_known,
            left,
        }
    }

    #[inline(always)]
    fn frame(&self) -> SeenFrame {
        SeenFrame {
            header: Header {
                response: self.response,
                flags: self.flags,
                stream: self.stream,
                opcode: self.opcode,
                length: self.length,
            },
            at: self.at,
            begun: time_of(self.is_begun_known, self.begun),
            ended: time_of(self.is_ended_known, self.ended),
            extent: self.extent,
        }
    }
}
