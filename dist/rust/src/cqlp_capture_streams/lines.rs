// Written by dist/erase from crates/cqlp_capture_streams/src/lines.rt.
//! The lines of connections.

use crate::kit_host::prelude::{String, format};
use crate::cqlp_capture_streams::files::StreamFile;
use crate::cqlp_grammar::SinkFault;
use crate::cqlp_note::Target;
use crate::cqlp_tcp_connections::{Begin, ConnectionTotals, DirectionTotals, End, Way};
use crate::cqlp_tcp_reassembly::GapCause;
use crate::cqlp_tcp_segment::{IpAddress, Endpoint};
use crate::cqlp_text::{Pen, TextWriter};
use crate::kit_std::alloc::{AllocError};
use crate::kit_host::net::{Ipv4Addr, Ipv6Addr};

/// The name of a way, as it is in names of files.
fn way_name(way: Way) -> &'static str {
    match way {
        Way::Requests => "requests",
        Way::Responses => "responses",
    }
}

/// Appends the line of a gap: its connection and direction, how many bytes were delivered before it, and how many are missing. Takes no memory.
pub(crate) fn gap_line<W: Target>(
    file: StreamFile,
    at: u64,
    length: u64,
    cause: GapCause,
    target: &mut W,
) -> Result<(), SinkFault> {
    let mut writer = TextWriter::over(target);
    let Ok(()) = put_gap(&mut writer, file, at, length, cause) else {
        let _ = writer.into_target();
        return Err(SinkFault);
    };
    let passed_on = writer.flush();
    let _ = writer.into_target();
    passed_on
}

/// Takes the line of a gap.
fn put_gap<P: Pen>(
    writer: &mut TextWriter<P>,
    file: StreamFile,
    at: u64,
    length: u64,
    cause: GapCause,
) -> Result<(), SinkFault> {
    writer.put(b"gap ")?;
    writer.put_number(file.number)?;
    writer.put(b" ")?;
    writer.put_str(way_name(file.way))?;
    writer.put(b" ")?;
    writer.put_number(at)?;
    writer.put(b" ")?;
    writer.put_number(length)?;
    writer.put_str(cause_end(cause))
}

/// The end of a gap's line, with a word where the snap length cut the packet.
fn cause_end(cause: GapCause) -> &'static str {
    match cause {
        GapCause::Lost => "\n",
        GapCause::Snapped => " snapped\n",
    }
}

/// Appends the line of a file with which that cannot be done. Takes no memory.
pub(crate) fn file_line<W: Target>(
    deed: &str,
    file: StreamFile,
    target: &mut W,
) -> Result<(), SinkFault> {
    let mut writer = TextWriter::over(target);
    let Ok(()) = put_file(&mut writer, deed, file) else {
        let _ = writer.into_target();
        return Err(SinkFault);
    };
    let passed_on = writer.flush();
    let _ = writer.into_target();
    passed_on
}

/// Takes the line of a file with which that cannot be done.
fn put_file<P: Pen>(
    writer: &mut TextWriter<P>,
    deed: &str,
    file: StreamFile,
) -> Result<(), SinkFault> {
    writer.put(b"cqlp: cannot ")?;
    writer.put_str(deed)?;
    writer.put(b" ")?;
    writer.put_number(file.number)?;
    writer.put(b".")?;
    writer.put_str(way_name(file.way))?;
    writer.put(b".bin\n")
}

/// Makes the lines of connections in memory, and has it for nothing else.
pub(crate) struct ConnectionLines {}

impl ConnectionLines {
    /// In this memory.
    pub(crate) fn new() -> Self {
        ConnectionLines {}
    }
}

impl ConnectionLines {
    /// The line of a connection that has left.
    pub(crate) fn line(&self, totals: &ConnectionTotals) -> Result<String, AllocError> {
        connection_line(totals)
    }
}

/// The line of a connection that has left.
fn connection_line<'a>(
    totals: &ConnectionTotals,
) -> Result<String, AllocError> {
    let number = totals.number;
    let client = end_text(&totals.client)?;
    let node = end_text(&totals.node)?;
    let requests = direction_text(&totals.requests)?;
    let responses = direction_text(&totals.responses)?;
    format!(
        "connection {number} {client} {node} requests {requests} responses {responses}\n"
    )
}

/// An end of a connection, as a socket's address is written.
fn end_text(end: &Endpoint) -> Result<String, AllocError> {
    let port = end.port;
    match end.address {
        IpAddress::V4(octets) => {
            let ip = Ipv4Addr::from(octets);
            format!("{ip}:{port}")
        }
        IpAddress::V6(octets) => {
            let ip = Ipv6Addr::from(octets);
            format!("[{ip}]:{port}")
        }
    }
}

/// What a direction delivered: its bytes, its gaps, and whether its begin and its end were seen.
fn direction_text(totals: &DirectionTotals) -> Result<String, AllocError> {
    let bytes = totals.bytes;
    let gaps = totals.gaps.saturating_add(totals.snapped);
    let begin = begin_name(totals.begin);
    let end = end_name(totals.end);
    format!("{bytes} gaps {gaps} {begin} {end}")
}

fn begin_name(begin: Begin) -> &'static str {
    match begin {
        Begin::Unseen => "unseen",
        Begin::Syn(_) => "begin",
        Begin::Middle(_) => "middle",
    }
}

fn end_name(end: End) -> &'static str {
    match end {
        End::Open => "open",
        End::Fin => "end",
        End::Reset => "reset",
    }
}
