// Written by dist/erase from crates/cqlp_capture_exchanges/src/losses.rt.
//! What a capture did not have, or was given up, in words.

use crate::cqlp_capture_exchanges::pool::ExchangeLimits;
use crate::cqlp_capture_exchanges::sums::ExchangeSums;
use crate::cqlp_capture_streams::{CaptureRead, StreamsFault, StreamsLimits, put_count};
use crate::cqlp_grammar::SinkFault;
use crate::cqlp_observer::Missed;
use crate::cqlp_text::{Pen, TextWriter};

/// What a capture did not have of its connections, or was given up, and the limits. A number stays at 2^64 - 1 once it is there.
#[derive(Clone, Copy)]
pub(crate) struct Losses {
    streams: StreamsLimits,
    exchanges: ExchangeLimits,
    /// What was missed of the connections.
    missed: Missed,
    /// Segments of connections that were cut.
    snapped: u64,
    /// Gaps that were declared since there was no room for more bytes that came early.
    early: u64,
    /// Packets that came after later ones were passed on.
    late: u64,
    /// Packets that came after later ones and that no window put in order, if a message was reported alone.
    out_of_order: u64,
    /// Connections that had to leave.
    crowded: u64,
}

/// What a capture that was read so, with these limits, did not have, where this was reported and missed of its connections.
pub(crate) fn losses_of(
    streams: StreamsLimits,
    exchanges: ExchangeLimits,
    answer: &Result<CaptureRead, StreamsFault>,
    sums: &ExchangeSums,
    missed: &Missed,
) -> Losses {
    match answer {
        Ok(read) => Losses {
            streams,
            exchanges,
            missed: *missed,
            snapped: read.packets.snapped,
            early: read.connections.given_up,
            late: read.order.late,
            out_of_order: unordered(sums, read.order.out_of_order),
            crowded: read.connections.crowded,
        },
        Err(_) => Losses {
            streams,
            exchanges,
            missed: *missed,
            snapped: 0,
            early: 0,
            late: 0,
            out_of_order: 0,
            crowded: 0,
        },
    }
}

/// How many of these packets out of order are a loss: all if a message was reported alone, whose partner they may have split from it; else none.
fn unordered(sums: &ExchangeSums, packets: u64) -> u64 {
    if sums.unanswered > 0 || sums.unasked > 0 {
        packets
    } else {
        0
    }
}

impl Losses {
    /// Whether something was missed, so that the numbers of a capture are not to be trusted.
    pub(crate) fn are_some(&self) -> bool {
        let missed = &self.missed;
        missed.overtaken > 0
            || missed.texts > 0
            || self.snapped > 0
            || missed.gaps > 0
            || self.early > 0
            || self.late > 0
            || self.out_of_order > 0
            || self.crowded > 0
            || missed.other_versions > 0
            || missed.tls > 0
            || missed.http > 0
    }

    /// Takes a line that says why the numbers of a capture are not to be trusted. Where nothing was missed, that is nothing.
    pub(crate) fn put_note<P: Pen>(&self, writer: &mut TextWriter<P>) -> Result<(), SinkFault> {
        if self.are_some() {
            put_reasons_line(writer, self)
        } else {
            writer.put(b"")
        }
    }
}

fn put_reasons_line<P: Pen>(writer: &mut TextWriter<P>, losses: &Losses) -> Result<(), SinkFault> {
    writer.put(b"cqlp: these numbers are not to be trusted")?;
    put_reasons(writer, losses)?;
    writer.put(b"\n")
}

/// A reason not to trust numbers, of which there are so many.
#[derive(Clone, Copy)]
enum Reason<'a> {
    Plain(u64, &'a str),
    /// A limit was met, and what it limits.
    Limit(u64, u64, &'a str),
}

/// Takes the reasons that there are.
fn put_reasons<P: Pen>(writer: &mut TextWriter<P>, losses: &Losses) -> Result<(), SinkFault> {
    let missed = &losses.missed;
    let open = losses.exchanges.open as u64;
    let text = mebibytes(losses.exchanges.text);
    let early = mebibytes(losses.streams.connections.early);
    let packets = losses.streams.order.packets as u64;
    let connections = losses.streams.connections.connections as u64;
    put_each(
        writer,
        &[
            Reason::Limit(missed.overtaken, open, " open requests (--open)"),
            Reason::Limit(missed.texts, text, " MiB of their texts (--text)"),
            Reason::Plain(losses.snapped, "packets were cut by the snap length"),
            Reason::Plain(missed.gaps, "bytes were not captured"),
            Reason::Limit(losses.early, early, " MiB that came early (--early)"),
            Reason::Limit(losses.late, packets, " packets out of order (--order)"),
            Reason::Plain(
                losses.out_of_order,
                "packets out of order may split exchanges (give the file instead of -, or --order)",
            ),
            Reason::Limit(
                losses.crowded,
                connections,
                " connections at one time (--connections)",
            ),
            Reason::Plain(
                missed.other_versions,
                "a version of the protocol other than 4",
            ),
            Reason::Plain(missed.tls, "TLS"),
            Reason::Plain(missed.http, "HTTP"),
        ],
    )
}

/// So many bytes in MiB.
fn mebibytes(bytes: usize) -> u64 {
    bytes as u64 / 1_048_576
}

/// Takes each of these reasons whose number is not 0.
fn put_each<P: Pen>(writer: &mut TextWriter<P>, reasons: &[Reason<'_>]) -> Result<(), SinkFault> {
    for reason in reasons {
        put_reason(writer, *reason)?;
    }
    Ok(())
}

/// Takes a reason, unless its number is 0.
fn put_reason<P: Pen>(writer: &mut TextWriter<P>, reason: Reason<'_>) -> Result<(), SinkFault> {
    match reason {
        Reason::Plain(count, words) => put_plain(writer, count, words),
        Reason::Limit(count, limit, words) => put_limit(writer, count, limit, words),
    }
}

fn put_plain<P: Pen>(writer: &mut TextWriter<P>, count: u64, words: &str) -> Result<(), SinkFault> {
    if count == 0 {
        writer.put(b"")
    } else {
        put_plain_words(writer, words)
    }
}

fn put_plain_words<P: Pen>(writer: &mut TextWriter<P>, words: &str) -> Result<(), SinkFault> {
    writer.put(b"; ")?;
    writer.put_str(words)
}

fn put_limit<P: Pen>(
    writer: &mut TextWriter<P>,
    count: u64,
    limit: u64,
    words: &str,
) -> Result<(), SinkFault> {
    if count == 0 {
        writer.put(b"")
    } else {
        put_limit_words(writer, limit, words)
    }
}

fn put_limit_words<P: Pen>(
    writer: &mut TextWriter<P>,
    limit: u64,
    words: &str,
) -> Result<(), SinkFault> {
    writer.put(b"; more than ")?;
    writer.put_number(limit)?;
    writer.put_str(words)
}

/// Takes the numbers of what was missed of connections that are not 0, each after its name.
pub(crate) fn put_losses<P: Pen>(
    writer: &mut TextWriter<P>,
    losses: &Losses,
) -> Result<(), SinkFault> {
    let missed = &losses.missed;
    put_count(writer, "Overtaken", missed.overtaken)?;
    put_count(writer, "Texts", missed.texts)?;
    put_count(writer, "Gaps", missed.gaps)?;
    put_count(writer, "OtherVersions", missed.other_versions)?;
    put_count(writer, "Tls", missed.tls)?;
    put_count(writer, "Http", missed.http)
}
