// Written by dist/erase from crates/cqlp_capture_exchanges/src/end.rt.
//! Ends of connections as text.

use crate::cqlp_grammar::SinkFault;
use crate::cqlp_tcp_segment::{IpAddress, Endpoint};
use crate::cqlp_text::{Pen, TextWriter};
use crate::kit_host::net::Ipv6Addr;

/// Takes an end as a socket's address is written: an IPv6 address is in brackets.
pub(crate) fn put_end<P: Pen>(writer: &mut TextWriter<P>, end: Endpoint) -> Result<(), SinkFault> {
    put_host(writer, end.address)?;
    writer.put(b":")?;
    writer.put_number(u64::from(end.port))
}

fn put_host<P: Pen>(writer: &mut TextWriter<P>, address: IpAddress) -> Result<(), SinkFault> {
    match address {
        IpAddress::V4(_) => put_ip(writer, address),
        IpAddress::V6(octets) => put_bracketed(writer, octets),
    }
}

/// Takes an address as it is written without a port.
pub(crate) fn put_ip<P: Pen>(writer: &mut TextWriter<P>, address: IpAddress) -> Result<(), SinkFault> {
    match address {
        IpAddress::V4(octets) => put_ipv4(writer, octets),
        IpAddress::V6(octets) => {
            let ip = Ipv6Addr::from(octets);
            put_ipv6(writer, ip)
        }
    }
}

/// Takes four octets as decimal numbers with dots.
fn put_ipv4<P: Pen>(writer: &mut TextWriter<P>, octets: [u8; 4]) -> Result<(), SinkFault> {
    writer.put_address(crate::cqlp_note::Address::V4(octets))
}

/// Takes an IPv6 address in brackets.
fn put_bracketed<P: Pen>(writer: &mut TextWriter<P>, octets: [u8; 16]) -> Result<(), SinkFault> {
    writer.put(b"[")?;
    put_ip(writer, IpAddress::V6(octets))?;
    writer.put(b"]")
}

/// Takes an IPv6 address as RFC 5952 says.
fn put_ipv6<P: Pen>(writer: &mut TextWriter<P>, address: Ipv6Addr) -> Result<(), SinkFault> {
    match address.to_ipv4_mapped() {
        Some(ipv4) => put_mapped(writer, ipv4.octets()),
        None => {
            let segments = address.segments();
            put_segments(writer, &segments)
        }
    }
}

/// Takes the IPv6 address that stands for an IPv4 address.
fn put_mapped<P: Pen>(writer: &mut TextWriter<P>, octets: [u8; 4]) -> Result<(), SinkFault> {
    writer.put(b"::ffff:")?;
    put_ipv4(writer, octets)
}

/// Takes segments with colons between them, and `::` in place of the longest run of zeros.
fn put_segments<P: Pen>(writer: &mut TextWriter<P>, segments: &[u16]) -> Result<(), SinkFault> {
    let (start, len) = longest_zero_run(segments);
    if len > 1 {
        put_groups(writer, &segments[..start])?;
        writer.put(b"::")?;
        put_groups(writer, &segments[start + len..])
    } else {
        put_groups(writer, segments)
    }
}

/// The start and the length of the longest run of zeros, and of two such runs the first.
fn longest_zero_run(segments: &[u16]) -> (usize, usize) {
    let mut start = segments.len();
    let mut len = 0;
    let mut run = 0;
    for i in (0..segments.len()).rev() {
        run = if segments[i] == 0 { run + 1 } else { 0 };
        if run >= len {
            start = i;
            len = run;
        }
    }
    (start, len)
}

/// Takes segments with colons between them.
fn put_groups<P: Pen>(writer: &mut TextWriter<P>, segments: &[u16]) -> Result<(), SinkFault> {
    let [first, rest @ ..] = segments else {
        return Ok(());
    };
    put_segment(writer, *first)?;
    for segment in rest {
        writer.put(b":")?;
        put_segment(writer, *segment)?;
    }
    Ok(())
}

/// Takes a segment as hexadecimal digits, without leading zeros.
fn put_segment<P: Pen>(writer: &mut TextWriter<P>, segment: u16) -> Result<(), SinkFault> {
    let digits = [
        hex_digit(segment / 0x1000),
        hex_digit(segment / 0x100 % 16),
        hex_digit(segment / 0x10 % 16),
        hex_digit(segment % 16),
    ];
    let zeros = leading_zeros(segment);
    writer.put(&digits[zeros..])
}

fn hex_digit(digit: u16) -> u8 {
    if digit < 10 {
        b'0' + digit as u8
    } else {
        b'a' + (digit - 10) as u8
    }
}

/// How many of a segment's four digits are leading zeros, the last digit apart.
fn leading_zeros(segment: u16) -> usize {
    match segment {
        0x1000.. => 0,
        0x100.. => 1,
        0x10.. => 2,
        _ => 3,
    }
}
