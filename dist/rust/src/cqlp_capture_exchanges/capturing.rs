// Written by dist/erase from crates/cqlp_capture_exchanges/src/capturing.rt.
//! A capture whose exchanges are written.

use crate::cqlp_capture_exchanges::exchanges::Exchanges;
use crate::cqlp_capture_exchanges::filter::ExchangeFilter;
use crate::cqlp_capture_exchanges::form::ExchangeForm;
use crate::cqlp_capture_exchanges::losses::{Losses, losses_of, put_losses};
use crate::cqlp_capture_exchanges::pool::ExchangeLimits;
use crate::cqlp_capture_exchanges::sums::ExchangeSums;
use crate::cqlp_capture_streams::{
    BlockWriter, Buffering, CaptureInput, CaptureRead, LastWords, StreamsFault, StreamsLimits,
    conclude_capture, finish_blocks, read_capture,
};
use crate::cqlp_grammar::SinkFault;
use crate::cqlp_note::Target;
use crate::cqlp_observer::Missed;
use crate::cqlp_statement_file::StatementTexts;
use crate::cqlp_text::{Pen, TextWriter};

/// Pairs the requests on the connections of a capture with their responses, of nodes that listen on these ports, within these limits. Writes each that the
/// filter shows to `out` in this form, with these texts of statements where the capture has no PREPARE with the id, and what the capture was, or the fault
/// line, to `err`. Answers the exit status and the two outputs.
///
/// Lines are written at once, or in blocks; without memory for a block also at once. The last block is written before the last line. After a fault
/// nothing more is asked of what failed.
pub(crate) fn write_exchanges<R: CaptureInput, O: Target, E: Target>(
    streams: StreamsLimits,
    limits: ExchangeLimits,
    ports: &[u16],
    given: StatementTexts,
    filter: ExchangeFilter,
    form: ExchangeForm,
    buffering: Buffering,
    input: &mut R,
    out: O,
    err: E,
) -> (u8, O, E) {
    let (answer, counts, out) = listen_by(
        streams, limits, ports, given, filter, form, buffering, input, out,
    );
    let (status, err) = conclude(streams, limits, ports, &answer, &counts, err);
    (status, out, err)
}

/// What was reported of a capture's connections, and what was missed.
#[derive(Clone, Copy)]
struct Counts {
    sums: ExchangeSums,
    missed: Missed,
}

impl Counts {
    /// Nothing.
    fn none() -> Self {
        Counts {
            sums: ExchangeSums::none(),
            missed: Missed::NONE,
        }
    }
}

/// Reads the capture, and writes the lines, at once or in blocks. Answers what it was, what was reported, and the output.
fn listen_by<R: CaptureInput, O: Target>(
    streams: StreamsLimits,
    limits: ExchangeLimits,
    ports: &[u16],
    given: StatementTexts,
    filter: ExchangeFilter,
    form: ExchangeForm,
    buffering: Buffering,
    input: &mut R,
    out: O,
) -> (Result<CaptureRead, StreamsFault>, Counts, O) {
    match buffering {
        Buffering::Line => listen(
            streams, limits, ports, given, filter, form, input, out,
        ),
        Buffering::Block => match BlockWriter::new(out) {
            Ok(blocks) => {
                listen_in_blocks(
                    streams, limits, ports, given, filter, form, input, blocks,
                )
            }
            Err(out) => listen(
                streams, limits, ports, given, filter, form, input, out,
            ),
        },
    }
}

/// Reads the capture, and writes the lines in blocks, of which none waits yet.
fn listen_in_blocks<R: CaptureInput, O: Target>(
    streams: StreamsLimits,
    limits: ExchangeLimits,
    ports: &[u16],
    given: StatementTexts,
    filter: ExchangeFilter,
    form: ExchangeForm,
    input: &mut R,
    blocks: BlockWriter<O>,
) -> (Result<CaptureRead, StreamsFault>, Counts, O) {
    let (read, counts, blocks) = listen(
        streams, limits, ports, given, filter, form, input, blocks,
    );
    let (answer, out) = finish_blocks(read, blocks);
    (answer, counts, out)
}

/// Reads the capture, and writes the lines. Answers what it was, what was reported, and the output.
fn listen<R: CaptureInput, O: Target>(
    streams: StreamsLimits,
    limits: ExchangeLimits,
    ports: &[u16],
    given: StatementTexts,
    filter: ExchangeFilter,
    form: ExchangeForm,
    input: &mut R,
    out: O,
) -> (Result<CaptureRead, StreamsFault>, Counts, O) {
    let mut exchanges = match Exchanges::new(limits, given, filter, form, out) {
        Ok(exchanges) => exchanges,
        Err(out) => return (Err(StreamsFault::NoMemory), Counts::none(), out),
    };
    let read = read_capture(streams, ports, input, &mut exchanges);
    let answer = finish(&mut exchanges, read);
    let missed = exchanges.missed();
    let (out, sums) = exchanges.into_parts();
    (answer, Counts { sums, missed }, out)
}

/// Where the capture was read, writes what is at the end.
fn finish<O: Target>(
    exchanges: &mut Exchanges<O>,
    read: Result<CaptureRead, StreamsFault>,
) -> Result<CaptureRead, StreamsFault> {
    match read {
        Ok(read) => match exchanges.finish() {
            Ok(()) => Ok(read),
            Err(SinkFault) => Err(StreamsFault::Write),
        },
        Err(fault) => Err(fault),
    }
}

/// Writes the lines of how the reading ended. Answers the exit status.
fn conclude<E: Target>(
    streams: StreamsLimits,
    limits: ExchangeLimits,
    ports: &[u16],
    answer: &Result<CaptureRead, StreamsFault>,
    counts: &Counts,
    err: E,
) -> (u8, E) {
    let last = LastCounts {
        sums: counts.sums,
        losses: losses_of(streams, limits, answer, &counts.sums, &counts.missed),
    };
    conclude_capture(answer, ports, &last, err)
}

/// What the last line says of the connections: the sums, and what was missed.
#[derive(Clone, Copy)]
struct LastCounts {
    sums: ExchangeSums,
    losses: Losses,
}

impl LastWords for LastCounts {
    fn has_note(&self) -> bool {
        self.losses.are_some()
    }

    fn put_note<P: Pen>(&self, writer: &mut TextWriter<P>) -> Result<(), SinkFault> {
        self.losses.put_note(writer)
    }

    fn put_words<P: Pen>(&self, writer: &mut TextWriter<P>) -> Result<(), SinkFault> {
        put_words(writer, &self.sums, &self.losses)
    }
}

fn put_words<P: Pen>(
    writer: &mut TextWriter<P>,
    sums: &ExchangeSums,
    losses: &Losses,
) -> Result<(), SinkFault> {
    put_sums(writer, sums)?;
    put_losses(writer, losses)
}

/// Takes the words of the sums.
fn put_sums<P: Pen>(writer: &mut TextWriter<P>, sums: &ExchangeSums) -> Result<(), SinkFault> {
    writer.put(b"exchanges ")?;
    writer.put_number(sums.exchanges)?;
    writer.put(b" unanswered ")?;
    writer.put_number(sums.unanswered)?;
    writer.put(b" unasked ")?;
    writer.put_number(sums.unasked)?;
    writer.put(b" events ")?;
    writer.put_number(sums.events)?;
    writer.put(b" cut ")?;
    writer.put_number(sums.cut)
}
