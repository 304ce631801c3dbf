// Written by dist/erase from crates/cqlp_capture_streams/src/recorder.rt.
//! The events of connections, on their way to files and to lines.

use crate::cqlp_capture_streams::connection_event::ConnectionEvent;
use crate::cqlp_capture_streams::fault::StreamsFault;
use crate::cqlp_capture_streams::files::{StreamFile, StreamFiles};
use crate::cqlp_capture_streams::last_words::LastWords;
use crate::cqlp_capture_streams::lines::{ConnectionLines, gap_line};
use crate::cqlp_capture_streams::listener::Listener;
use crate::cqlp_grammar::SinkFault;
use crate::cqlp_note::Target;
use crate::cqlp_tcp_connections::{ConnectionTotals, Delivery, DirectionTotals};
use crate::cqlp_tcp_reassembly::{GapCause, StreamStep};
use crate::cqlp_text::{Pen, TextWriter, put_text};
use crate::kit_std::alloc::{AllocError};

/// What the connections delivered that have left. A number stays at 2^64 - 1 once it is there.
#[derive(Clone, Copy)]
pub(crate) struct Sums {
    pub gaps: u64,
    /// Bytes that were handed on.
    pub bytes: u64,
}

/// Has files keep the bytes of connections, and writes a line for each gap and for each connection that has left.
pub(crate) struct Recorder<F: StreamFiles, O: Target> {
    lines: ConnectionLines,
    files: F,
    out: O,
    sums: Sums,
}

impl Sums {
    fn add(&mut self, totals: &DirectionTotals) {
        self.gaps = self
            .gaps
            .saturating_add(totals.gaps)
            .saturating_add(totals.snapped);
        self.bytes = self.bytes.saturating_add(totals.bytes);
    }

    /// Takes their words in the last line.
    fn put<P: Pen>(&self, writer: &mut TextWriter<P>) -> Result<(), SinkFault> {
        writer.put(b"gaps ")?;
        writer.put_number(self.gaps)?;
        writer.put(b" bytes ")?;
        writer.put_number(self.bytes)
    }
}

impl LastWords for Sums {
    fn has_note(&self) -> bool {
        false
    }

    fn put_note<P: Pen>(&self, writer: &mut TextWriter<P>) -> Result<(), SinkFault> {
        writer.put(b"")
    }

    fn put_words<P: Pen>(&self, writer: &mut TextWriter<P>) -> Result<(), SinkFault> {
        self.put(writer)
    }
}

impl<F: StreamFiles, O: Target> Recorder<F, O> {
    /// Over files and an output, with nothing recorded.
    pub fn new(files: F, out: O) -> Self {
        Recorder {
            lines: ConnectionLines::new(),
            files,
            out,
            sums: Sums { gaps: 0, bytes: 0 },
        }
    }

    /// The files, the output and the sums.
    pub fn into_parts(self) -> (F, O, Sums) {
        let Recorder {
            lines: _,
            files,
            out,
            sums,
        } = self;
        (files, out, sums)
    }
}

impl<F: StreamFiles, O: Target> Recorder<F, O> {
    /// Takes an event: a new connection's files are made, bytes are appended to the file of their direction, a gap is a line,
    /// and the files of a connection that has left are kept, and then its line is written.
    fn record(&mut self, event: &ConnectionEvent<'_>) -> Result<(), StreamsFault> {
        match event {
            ConnectionEvent::Packet { .. } => Ok(()),
            ConnectionEvent::New { number } => Ok(self.files.make(*number)?),
            ConnectionEvent::Of { delivered, bytes } => self.record_step(delivered, bytes),
            ConnectionEvent::Left(totals) => self.keep(totals),
        }
    }

    /// Takes what a direction delivers.
    fn record_step(&mut self, delivered: &Delivery, bytes: &[u8]) -> Result<(), StreamsFault> {
        let file = StreamFile {
            number: delivered.number,
            way: delivered.way,
        };
        match delivered.step {
            StreamStep::Payload { .. } | StreamStep::Held { .. } => {
                Ok(self.files.append(file, bytes)?)
            }
            StreamStep::Gap { length, cause, .. } => self.put_gap(
                file,
                delivered.at,
                length,
                cause,
            ),
            StreamStep::Began { .. }
            | StreamStep::Kept
            | StreamStep::Ended
            | StreamStep::Reset
            | StreamStep::Done => Ok(()),
        }
    }

    /// Writes the line of a gap, for which there is no memory to take.
    fn put_gap(
        &mut self,
        file: StreamFile,
        at: u64,
        length: u64,
        cause: GapCause,
    ) -> Result<(), StreamsFault> {
        match gap_line(file, at, length, cause, &mut self.out) {
            Ok(()) => Ok(()),
            Err(SinkFault) => Err(StreamsFault::Write),
        }
    }

    /// Keeps the files of a connection, and writes its line.
    fn keep(&mut self, totals: &ConnectionTotals) -> Result<(), StreamsFault> {
        self.files.keep(totals.number)?;
        self.sums.add(&totals.requests);
        self.sums.add(&totals.responses);
        match self.lines.line(totals) {
            Ok(line) => put_line(&line, &mut self.out),
            Err(AllocError) => Err(StreamsFault::NoMemory),
        }
    }
}

impl<F: StreamFiles, O: Target> Listener for Recorder<F, O> {
    fn hear(&mut self, event: &ConnectionEvent<'_>) -> Result<(), StreamsFault> {
        self.record(event)
    }
}

fn put_line<O: Target>(line: &str, out: &mut O) -> Result<(), StreamsFault> {
    match put_text(line, out) {
        Ok(()) => Ok(()),
        Err(SinkFault) => Err(StreamsFault::Write),
    }
}
