// Written by dist/erase from crates/cqlp_tcp_reassembly/src/queue.rt.
//! Runs in a queue.

use crate::kit_std::prelude::{KitVec};
use crate::cqlp_tcp_reassembly::run::{EarlyPart, Part, RUN_SIZE, Run, RunSummary};
use crate::kit_std::alloc::{AllocError};
use crate::kit_std::collections::VecDeque;

/// Parts of segments that came early, by position. None covers another. It has memory for fewer than twice as many.
pub(crate) struct RunQueue {
    runs: VecDeque<Run>,
    /// Their bytes, and 144 for each.
    size: usize,
}

impl RunQueue {
    /// None, without memory.
    #[cfg_attr(not(feature = "cli"), inline)]
    pub(crate) fn new() -> Self {
        RunQueue {
            runs: VecDeque::new(),
            size: 0,
        }
    }

    /// A run and one that comes before it or behind it, in memory for two.
    #[cfg_attr(not(feature = "cli"), inline)]
    pub(crate) fn of_two(
        room: VecDeque<Run>,
        one: Run,
        other: Run,
        is_before: bool,
    ) -> Self {
        let mut runs = room;
        let size = one.size() + other.size();
        if is_before {
            runs.push_back_reserved(other);
            runs.push_back_reserved(one);
        } else {
            runs.push_back_reserved(one);
            runs.push_back_reserved(other);
        }
        RunQueue { runs, size }
    }

    /// What they count.
    #[cfg_attr(not(feature = "cli"), inline)]
    pub(crate) fn size(&self) -> usize {
        self.size
    }

    #[cfg_attr(not(feature = "cli"), inline)]
    pub(crate) fn is_empty(&self) -> bool {
        self.runs.is_empty()
    }

    /// The position of the first, or this one where it is less or there is none.
    #[cfg_attr(not(feature = "cli"), inline)]
    pub(crate) fn first_at(&self, other: u64) -> u64 {
        match self.runs.front() {
            None => other,
            Some(run) => other.min(run.at()),
        }
    }

    /// The first, if it begins at this position.
    #[cfg_attr(not(feature = "cli"), inline)]
    pub(crate) fn summary_at(&self, position: u64) -> Option<RunSummary> {
        match self.runs.front() {
            None => None,
            Some(run) => {
                if run.at() == position {
                    Some(run.summary())
                } else {
                    None
                }
            }
        }
    }

    /// Its bytes.
    #[cfg_attr(not(feature = "cli"), inline)]
    pub(crate) fn bytes_at(&self, position: u64) -> &[u8] {
        match self.runs.front() {
            None => &[],
            Some(run) => {
                if run.at() == position {
                    run.bytes()
                } else {
                    &[]
                }
            }
        }
    }

    /// The first part from a position on, up to another, that none covers. It is empty where they cover all.
    #[cfg_attr(not(feature = "cli"), inline)]
    pub(crate) fn first_free(&self, from: u64, to: u64) -> Part {
        match self.behind_last(from) {
            None => self.free_part(from, to),
            Some(start) => Part {
                index: self.runs.len(),
                from: start,
                to,
            },
        }
    }

    /// The position behind the last, or this one if it is greater, where the last begins no later.
    #[cfg_attr(not(feature = "cli"), inline)]
    fn behind_last(&self, from: u64) -> Option<u64> {
        match self.runs.back() {
            None => None,
            Some(last) => {
                if from < last.at() {
                    None
                } else {
                    Some(from.max(last.end()))
                }
            }
        }
    }

    /// That part, from the first of them on.
    #[cfg_attr(not(feature = "cli"), inline)]
    fn free_part(&self, from: u64, to: u64) -> Part {
        let mut start = from;
        for index in 0..self.runs.len() {
            let run = &self.runs[index];
            if start < run.at() {
                return Part {
                    index,
                    from: start,
                    to: to.min(run.at()),
                };
            }
            start = start.max(run.end());
        }
        Part {
            index: self.runs.len(),
            from: start,
            to,
        }
    }

    /// Keeps a part.
    ///
    /// # Errors
    ///
    /// Memory that is refused. Then nothing changes.
    #[cfg_attr(not(feature = "cli"), inline)]
    pub(crate) fn insert(&mut self, early: EarlyPart<'_>) -> Result<(), AllocError> {
        let run = Run::new(early)?;
        self.make_room()?;
        self.runs.insert(early.part.index, run)?;
        self.size += early.bytes.len() + RUN_SIZE;
        Ok(())
    }

    /// Takes memory for one more, and for half as many again as there are, if there is none.
    #[cfg_attr(not(feature = "cli"), inline)]
    fn make_room(&mut self) -> Result<(), AllocError> {
        let count = self.runs.len();
        if count < self.runs.capacity() {
            return Ok(());
        }
        self.runs.kit_reserve_exact(1 + count / 2)
    }

    /// Goes on behind the bytes of the first, or where it has none behind all of it.
    #[cfg_attr(not(feature = "cli"), inline)]
    pub(crate) fn pass_first(&mut self) {
        if self.runs.is_empty() {
            return;
        }
        let run = self.runs[0].summary();
        self.size -= run.length;
        if run.length > 0 && run.missing > 0 {
            self.runs[0].drop_bytes();
        } else {
            self.size -= RUN_SIZE;
            self.runs.pop_front();
        }
        let count = self.runs.len();
        if count <= self.runs.capacity() / 2 {
            self.runs.shrink_to(count + count / 2);
        }
    }
}
