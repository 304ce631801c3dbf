// Written by dist/erase from crates/cqlp_tcp_reassembly/src/run.rt.
//! A part of a segment that came early.

use crate::kit_std::prelude::{KitVec, Vec};
use crate::kit_std::alloc::{AllocError};

/// What `size` counts for each part of a segment that is kept, beside its bytes: what it takes beside them at most. That is 56 bytes for its
/// record, as many where the queue has memory for one more, up to 31 of the allocator, and a share of the queue's own record.
pub const RUN_SIZE: usize = 144;

/// A part of a segment: that from one position up to another.
#[derive(Clone, Copy)]
pub(crate) struct Part {
    /// How many runs lie before it.
    pub(crate) index: usize,
    pub(crate) from: u64,
    pub(crate) to: u64,
}

/// A part that is to be kept.
#[derive(Clone, Copy)]
pub(crate) struct EarlyPart<'a> {
    pub(crate) part: Part,
    /// Its bytes. Those behind them, up to its end, were not captured.
    pub(crate) bytes: &'a [u8],
    /// Whether its first byte is the first of the segment.
    pub(crate) begins: bool,
    /// When the packet was captured.
    pub(crate) time: Option<u64>,
}

/// What a run has.
#[derive(Clone, Copy)]
pub(crate) struct RunSummary {
    /// How many bytes, and how many behind those that were not captured.
    pub(crate) length: usize,
    pub(crate) missing: u64,
    pub(crate) begins: bool,
    pub(crate) time: Option<u64>,
}

/// A part that is kept.
pub(crate) struct Run {
    /// The position of its first byte.
    at: u64,
    bytes: Vec<u8>,
    missing: u64,
    /// When the packet was captured, where that is known.
    time: u64,
    has_time: bool,
    begins: bool,
}

impl Run {
    /// A copy of this part.
    #[cfg_attr(not(feature = "cli"), inline)]
    pub(crate) fn new(early: EarlyPart<'_>) -> Result<Self, AllocError> {
        let count = early.bytes.len() as u64;
        let bytes = Vec::from_slice(early.bytes)?;
        Ok(Run {
            at: early.part.from,
            bytes,
            missing: early.part.to - early.part.from - count,
            time: early.time.unwrap_or(0),
            has_time: early.time.is_some(),
            begins: early.begins,
        })
    }

    /// Of no bytes. It takes no memory.
    #[cfg_attr(not(feature = "cli"), inline)]
    pub(crate) fn blank() -> Self {
        Run {
            at: 0,
            bytes: Vec::new(),
            missing: 0,
            time: 0,
            has_time: false,
            begins: false,
        }
    }

    /// The position of its first byte.
    #[cfg_attr(not(feature = "cli"), inline)]
    pub(crate) fn at(&self) -> u64 {
        self.at
    }

    /// The position behind it.
    #[cfg_attr(not(feature = "cli"), inline)]
    pub(crate) fn end(&self) -> u64 {
        self.at + self.bytes.len() as u64 + self.missing
    }

    #[cfg_attr(not(feature = "cli"), inline)]
    pub(crate) fn bytes(&self) -> &[u8] {
        self.bytes.as_slice()
    }

    #[cfg_attr(not(feature = "cli"), inline)]
    pub(crate) fn summary(&self) -> RunSummary {
        RunSummary {
            length: self.bytes.len(),
            missing: self.missing,
            begins: self.begins,
            time: self.time(),
        }
    }

    /// What it counts, in the measure of `Stream::size`.
    #[cfg_attr(not(feature = "cli"), inline)]
    pub(crate) fn size(&self) -> usize {
        self.bytes.len() + RUN_SIZE
    }

    /// It, if it begins at this position.
    #[cfg_attr(not(feature = "cli"), inline)]
    pub(crate) fn summary_at(&self, position: u64) -> Option<RunSummary> {
        if self.at == position {
            Some(self.summary())
        } else {
            None
        }
    }

    /// Its bytes, if it begins at this position.
    #[cfg_attr(not(feature = "cli"), inline)]
    pub(crate) fn bytes_at(&self, position: u64) -> &[u8] {
        if self.at == position {
            self.bytes.as_slice()
        } else {
            &[]
        }
    }

    /// The first part from a position on, up to another, that it does not cover. It is empty where it covers all.
    #[cfg_attr(not(feature = "cli"), inline)]
    pub(crate) fn first_free(&self, from: u64, to: u64) -> Part {
        if from < self.at {
            Part {
                index: 0,
                from,
                to: to.min(self.at),
            }
        } else {
            Part {
                index: 1,
                from: from.max(self.end()),
                to,
            }
        }
    }

    #[cfg_attr(not(feature = "cli"), inline)]
    fn time(&self) -> Option<u64> {
        if self.has_time { Some(self.time) } else { None }
    }

    /// Drops its bytes, and goes on behind them.
    #[cfg_attr(not(feature = "cli"), inline)]
    pub(crate) fn drop_bytes(&mut self) {
        self.at += self.bytes.len() as u64;
        self.bytes.clear();
        self.bytes.shrink_to_fit();
        self.begins = false;
    }
}

/// As many bytes of a payload as `most`, from this index on, or fewer where it ends.
pub(crate) fn cut(payload: &[u8], from: usize, most: u64) -> &[u8] {
    let start = from.min(payload.len());
    let count = most.min((payload.len() - start) as u64) as usize;
    &payload[start..start + count]
}
