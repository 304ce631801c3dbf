// Written by dist/erase from crates/cqlp_tcp_reassembly/src/runs.rt.
//! What came early.

use crate::kit_std::prelude::{Box, KitBox, KitVec};
use crate::cqlp_tcp_reassembly::queue::RunQueue;
use crate::cqlp_tcp_reassembly::run::{EarlyPart, Part, Run, RunSummary};
use crate::kit_std::alloc::{AllocError};
use crate::kit_std::collections::VecDeque;
use core::mem;

/// Parts of segments that came early, by position. None covers another. It has memory only while there are any.
pub(crate) struct Runs {
    store: Store,
}

/// Where they lie: one alone in a box of its own, several in a queue.
pub(crate) enum Store {
    Empty,
    Alone { run: Box<Run> },
    Queued { queue: Box<RunQueue> },
}

impl Runs {
    /// None, without memory.
    #[cfg_attr(not(feature = "cli"), inline)]
    pub(crate) fn new() -> Self {
        Runs {
            store: Store::Empty,
        }
    }

    /// What they count.
    #[inline]
    pub(crate) fn size(&self) -> usize {
        match &self.store {
            Store::Empty => 0,
            Store::Alone { run } => run.size(),
            Store::Queued { queue } => queue.size(),
        }
    }

    #[inline]
    pub(crate) fn is_empty(&self) -> bool {
        match &self.store {
            Store::Empty => true,
            Store::Alone { .. } => false,
            Store::Queued { queue } => queue.is_empty(),
        }
    }

    /// The position of the first, or this one where it is less or there is none.
    #[inline]
    pub(crate) fn first_at(&self, other: u64) -> u64 {
        match &self.store {
            Store::Empty => other,
            Store::Alone { run } => other.min(run.at()),
            Store::Queued { queue } => queue.first_at(other),
        }
    }

    /// The first, if it begins at this position.
    #[inline]
    pub(crate) fn summary_at(&self, position: u64) -> Option<RunSummary> {
        match &self.store {
            Store::Empty => None,
            Store::Alone { run } => run.summary_at(position),
            Store::Queued { queue } => queue.summary_at(position),
        }
    }

    /// Its bytes.
    #[cfg_attr(not(feature = "cli"), inline)]
    pub(crate) fn bytes_at(&self, position: u64) -> &[u8] {
        match &self.store {
            Store::Empty => &[],
            Store::Alone { run } => run.bytes_at(position),
            Store::Queued { queue } => queue.bytes_at(position),
        }
    }

    /// The first part from a position on, up to another, that none covers. It is empty where they cover all.
    #[inline]
    pub(crate) fn first_free(&self, from: u64, to: u64) -> Part {
        match &self.store {
            Store::Empty => Part { index: 0, from, to },
            Store::Alone { run } => run.first_free(from, to),
            Store::Queued { queue } => queue.first_free(from, to),
        }
    }

    /// Keeps a part.
    ///
    /// # Errors
    ///
    /// Memory that is refused. Then nothing changes.
    #[cfg_attr(not(feature = "cli"), inline)]
    pub(crate) fn insert(&mut self, early: EarlyPart<'_>) -> Result<(), AllocError> {
        match &mut self.store {
            Store::Queued { queue } => queue.insert(early),
            Store::Alone { run } => {
                let queue = queue_with(run, early)?;
                self.store = Store::Queued { queue };
                Ok(())
            }
            Store::Empty => {
                let run = Run::new(early)?;
                self.store = Store::Alone {
                    run: Box::kit_new(run)?,
                };
                Ok(())
            }
        }
    }

    /// Goes on behind the bytes of the first, or where it has none behind all of it.
    #[cfg_attr(not(feature = "cli"), inline)]
    pub(crate) fn pass_first(&mut self) {
        self.store = match mem::replace(&mut self.store, Store::Empty) {
            Store::Empty => Store::Empty,
            Store::Alone { run } => behind_alone(run),
            Store::Queued { queue } => behind_queued(queue),
        };
    }

    /// Drops all, with their memory.
    #[cold]
    #[cfg_attr(not(feature = "cli"), inline)]
    pub(crate) fn clear(&mut self) {
        self.store = Store::Empty;
    }
}

/// A queue of a run, which is moved there, and of a part beside it. Where memory is refused the run stays.
#[cfg_attr(not(feature = "cli"), inline)]
fn queue_with(
    run: &mut Run,
    early: EarlyPart<'_>,
) -> Result<Box<RunQueue>, AllocError> {
    let mut queue = Box::kit_new(RunQueue::new())?;
    let mut room = VecDeque::new();
    room.kit_reserve_exact(2)?;
    let second = Run::new(early)?;
    let first = mem::replace(run, Run::blank());
    *queue = RunQueue::of_two(room, first, second, early.part.index == 0);
    Ok(queue)
}

/// Behind the bytes of the only one, or all of it.
#[cfg_attr(not(feature = "cli"), inline)]
fn behind_alone(mut run: Box<Run>) -> Store {
    let summary = run.summary();
    if summary.length > 0 && summary.missing > 0 {
        run.drop_bytes();
        Store::Alone { run }
    } else {
        Store::Empty
    }
}

/// Behind the bytes of the first in a queue, or all of it.
#[cfg_attr(not(feature = "cli"), inline)]
fn behind_queued(mut queue: Box<RunQueue>) -> Store {
    queue.pass_first();
    if queue.is_empty() {
        Store::Empty
    } else {
        Store::Queued { queue }
    }
}
