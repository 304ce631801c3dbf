// Written by dist/erase from crates/cqlp_capture_streams/src/busiest.rt.
//! The line where no packet is of the ports that are asked for.

use crate::cqlp_capture_streams::capturing::CaptureRead;
use crate::cqlp_grammar::SinkFault;
use crate::cqlp_text::{Pen, TextWriter};

/// Takes the ports that most segments have, in a line, where there was no connection. There is none, where there was no segment.
pub(crate) fn put_busiest<P: Pen>(
    writer: &mut TextWriter<P>,
    read: &CaptureRead,
    ports: &[u16],
) -> Result<(), SinkFault> {
    let busiest = read.busiest;
    if read.connections.connections > 0 {
        writer.put(b"")
    } else if busiest[0].1 == 0 {
        writer.put(b"")
    } else {
        put_busy(writer, ports, busiest[0], busiest[1], busiest[2])
    }
}

fn put_busy<P: Pen>(
    writer: &mut TextWriter<P>,
    ports: &[u16],
    first: (u16, u64),
    second: (u16, u64),
    third: (u16, u64),
) -> Result<(), SinkFault> {
    writer.put(b"cqlp: no packet of port ")?;
    put_ports(writer, ports)?;
    writer.put(b"; most went to ")?;
    put_port(writer, first)?;
    put_next(writer, second)?;
    put_next(writer, third)?;
    writer.put(b"\n")
}

/// Takes ports, with commas between them.
fn put_ports<P: Pen>(writer: &mut TextWriter<P>, ports: &[u16]) -> Result<(), SinkFault> {
    let Some((first, more)) = ports.split_first() else {
        return writer.put(b"");
    };
    writer.put_number(*first as u64)?;
    put_more(writer, more)
}

/// Takes ports, each behind a comma.
fn put_more<P: Pen>(writer: &mut TextWriter<P>, ports: &[u16]) -> Result<(), SinkFault> {
    for port in ports {
        put_more_port(writer, *port)?;
    }
    Ok(())
}

/// Takes a port behind a comma.
fn put_more_port<P: Pen>(writer: &mut TextWriter<P>, port: u16) -> Result<(), SinkFault> {
    writer.put(b", ")?;
    writer.put_number(port as u64)
}

/// Takes a port, and how many segments had it.
fn put_port<P: Pen>(writer: &mut TextWriter<P>, port: (u16, u64)) -> Result<(), SinkFault> {
    writer.put_number(port.0 as u64)?;
    writer.put(b" (")?;
    writer.put_number(port.1)?;
    writer.put(b")")
}

/// Takes one more, behind a comma, if some segments had it.
fn put_next<P: Pen>(writer: &mut TextWriter<P>, port: (u16, u64)) -> Result<(), SinkFault> {
    if port.1 == 0 {
        writer.put(b"")
    } else {
        put_behind(writer, port)
    }
}

fn put_behind<P: Pen>(writer: &mut TextWriter<P>, port: (u16, u64)) -> Result<(), SinkFault> {
    writer.put(b", ")?;
    put_port(writer, port)
}
