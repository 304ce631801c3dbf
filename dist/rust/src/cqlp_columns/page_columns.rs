// Written by dist/erase from crates/cqlp_columns/src/page_columns.rt.
//! Columns, and a sink beside them.

use crate::cqlp_columns::columns::Columns;
use crate::cqlp_columns::filled::{Filled, Stop};
use crate::cqlp_decode::{Decoder, Step};
use crate::cqlp_grammar::{Event, Sink, SinkFault};

/// Where the last event went.
#[derive(Clone, Copy, Debug, PartialEq, Eq)]
pub enum Went {
    /// Into the columns, which take another.
    Cell,
    /// Into the columns, which are full with it.
    Last,
    /// To the sink beside them.
    Other,
    /// To the sink beside them, which failed.
    Failed,
}

/// The columns of a page, and a sink for the events that they do not take. As a sink it fails at an event that is not taken, and at the cell that fills
/// the columns, and both are used then.
pub struct PageColumns<S: Sink> {
    /// The columns that the cells fill, a batch of rows at a time.
    pub columns: Columns,
    /// What takes all other events: headers, fields, types and the ends of frames.
    pub other: S,
    /// Where the last event went. After a call of [`PageColumns::read`] it is as its answer says: `Last` where the columns are full, and `Cell` where it
    /// stopped at no event.
    pub went: Went,
}

impl<S: Sink> PageColumns<S> {
    /// These columns, with this sink beside them.
    #[must_use]
    pub fn new(columns: Columns, other: S) -> Self {
        PageColumns {
            columns,
            other,
            went: Went::Cell,
        }
    }

    /// Reads on: the next events of the input are cells that the columns take, up to the one that fills them or the first that they do not take, which
    /// the other sink gets. Columns that are full already use nothing.
    pub fn read(&mut self, decoder: &mut Decoder, input: &[u8]) -> Filled {
        if self.columns.is_full() {
            self.went = Went::Last;
            return Filled {
                used: 0,
                stop: Stop::Full,
            };
        }
        self.read_on(decoder, input)
    }

    /// The same, of columns that are not full.
    fn read_on(&mut self, decoder: &mut Decoder, input: &[u8]) -> Filled {
        self.went = Went::Cell;
        let mut used = 0;
        loop {
            match decoder.hand_whole(&input[used..], self) {
                Ok(taken) => used += taken,
                Err(fault) => return self.stopped(used + fault.used),
            }
            match decoder.next(&input[used..]) {
                Step::More { used: taken } => {
                    return Filled {
                        used: used + taken,
                        stop: Stop::More,
                    };
                }
                Step::Refused(refusal) => {
                    return Filled {
                        used,
                        stop: Stop::Refused(refusal),
                    };
                }
                Step::Event {
                    at,
                    used: taken,
                    event,
                } => match self.take(at, &event) {
                    Ok(()) => used += taken,
                    Err(SinkFault) => return self.stopped(used + taken),
                },
            }
        }
    }

    /// What a call made that stops at the last event.
    fn stopped(&self, used: usize) -> Filled {
        let stop = match self.went {
            Went::Cell => Stop::More,
            Went::Last => Stop::Full,
            Went::Other => Stop::Other,
            Went::Failed => Stop::Failed,
        };
        Filled { used, stop }
    }

    /// Puts an event where it belongs.
    #[inline(always)]
    fn sort(&mut self, at: u64, event: &Event<'_>) -> Went {
        if is_whole(event) && self.columns.take(event).is_ok() {
            if self.columns.is_full() {
                Went::Last
            } else {
                Went::Cell
            }
        } else {
            match pass(&mut self.other, at, *event) {
                Ok(()) => Went::Other,
                Err(SinkFault) => Went::Failed,
            }
        }
    }
}

impl<S: Sink> Sink for PageColumns<S> {
    #[inline(always)]
    fn take(&mut self, at: u64, event: &Event<'_>) -> Result<(), SinkFault> {
        self.went = self.sort(at, event);
        match self.went {
            Went::Cell => Ok(()),
            Went::Last | Went::Other | Went::Failed => Err(SinkFault),
        }
    }
}

/// Whether an event is a whole cell.
#[inline(always)]
fn is_whole(event: &Event<'_>) -> bool {
    match *event {
        Event::Leaf { level, .. } | Event::Null { level, .. } | Event::Empty { level, .. } => {
            level == 0
        }
        Event::Enter { .. }
        | Event::Leave { .. }
        | Event::Part { .. }
        | Event::Frame(_)
        | Event::Byte { .. }
        | Event::Short { .. }
        | Event::Int { .. }
        | Event::Long { .. }
        | Event::Uuid { .. }
        | Event::Count { .. }
        | Event::Text { .. }
        | Event::Bytes { .. }
        | Event::Bound { .. }
        | Event::Inet { .. }
        | Event::TypeNode(_)
        | Event::End { .. } => false,
    }
}

/// Hands an event to a sink. It is given a copy, so that an event which is not handed on need not lie in memory.
#[cold]
#[inline(never)]
fn pass<S: Sink>(sink: &mut S, at: u64, event: Event<'_>) -> Result<(), SinkFault> {
    match sink.take(at, &event) {
        Ok(()) => Ok(()),
        Err(SinkFault) => Err(SinkFault),
    }
}
