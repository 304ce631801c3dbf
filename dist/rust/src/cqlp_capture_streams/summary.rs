// Written by dist/erase from crates/cqlp_capture_streams/src/summary.rt.
//! What a capture was, in numbers.

use crate::cqlp_capture_streams::capturing::CaptureRead;
use crate::cqlp_capture_streams::packets::{PacketCounts, WithoutCounts};
use crate::cqlp_grammar::SinkFault;
use crate::cqlp_packet_order::OrderCounts;
use crate::cqlp_tcp_connections::ConnectionCounts;
use crate::cqlp_text::{Pen, TextWriter};

/// Takes how many packets, segments and connections there were.
pub(crate) fn put_head<P: Pen>(
    writer: &mut TextWriter<P>,
    read: &CaptureRead,
) -> Result<(), SinkFault> {
    put_named(writer, "packets", read.packets.packets)?;
    put_named(writer, "segments", read.packets.segments)?;
    put_named(writer, "connections", read.connections.connections)
}

/// Takes how many packets were out of order.
pub(crate) fn put_order<P: Pen>(
    writer: &mut TextWriter<P>,
    counts: &OrderCounts,
) -> Result<(), SinkFault> {
    put_count(writer, "Reordered", counts.reordered)?;
    put_count(writer, "Late", counts.late)?;
    put_count(writer, "OutOfOrder", counts.out_of_order)
}

/// Takes how many files came after the first, and how many before the last were cut.
pub(crate) fn put_files<P: Pen>(
    writer: &mut TextWriter<P>,
    counts: &PacketCounts,
) -> Result<(), SinkFault> {
    put_count(writer, "MoreFiles", counts.more_files)?;
    put_count(writer, "CutFiles", counts.cut_files)
}

/// Takes what connections did not take.
pub(crate) fn put_table<P: Pen>(
    writer: &mut TextWriter<P>,
    counts: &ConnectionCounts,
) -> Result<(), SinkFault> {
    put_count(writer, "Early", counts.given_up)?;
    put_count(writer, "Crowded", counts.crowded)?;
    put_count(writer, "OtherPorts", counts.foreign)
}

/// Takes how many packets had no segment, by the reason.
pub(crate) fn put_reasons<P: Pen>(
    writer: &mut TextWriter<P>,
    counts: &WithoutCounts,
) -> Result<(), SinkFault> {
    put_count(writer, "UnknownLink", counts.unknown_link)?;
    put_count(writer, "CutInLink", counts.cut_in_link)?;
    put_count(writer, "NotIp", counts.not_ip)?;
    put_count(writer, "CutInIp", counts.cut_in_ip)?;
    put_count(writer, "BadIpLength", counts.bad_ip_length)?;
    put_count(writer, "Fragment", counts.fragment)?;
    put_count(writer, "NotTcp", counts.not_tcp)?;
    put_count(writer, "CutInTunnel", counts.cut_in_tunnel)?;
    put_count(writer, "TooManyTunnels", counts.too_many_tunnels)?;
    put_count(writer, "CutInTcp", counts.cut_in_tcp)?;
    put_count(writer, "BadTcpLength", counts.bad_tcp_length)
}

/// Takes a name and a number, each after a space, unless the number is 0.
pub fn put_count<P: Pen>(
    writer: &mut TextWriter<P>,
    name: &str,
    count: u64,
) -> Result<(), SinkFault> {
    if count == 0 {
        writer.put(b"")
    } else {
        put_named(writer, name, count)
    }
}

/// Takes a name and a number, each after a space.
fn put_named<P: Pen>(writer: &mut TextWriter<P>, name: &str, count: u64) -> Result<(), SinkFault> {
    writer.put(b" ")?;
    writer.put_str(name)?;
    writer.put(b" ")?;
    writer.put_number(count)
}
