// Written by dist/erase from crates/cqlp_tcp_segment/src/segments.rt.
//! Segments of TCP.

use crate::cqlp_tcp_segment::addresses::Endpoint;
use crate::cqlp_tcp_segment::fields::{number_16, number_32};
use crate::cqlp_tcp_segment::ip::Carried;
use crate::cqlp_tcp_segment::link::{LinkType, ip_packet};
use crate::cqlp_tcp_segment::reason::NoSegment;
use crate::cqlp_tcp_segment::tcp::{Flags, header_length};
use crate::cqlp_tcp_segment::tunnels::innermost;

/// What the headers say of a segment.
#[derive(Clone, Copy, Debug, PartialEq, Eq)]
pub struct SegmentHead {
    /// The end that sent it.
    pub source: Endpoint,
    /// The end that it was sent to.
    pub destination: Endpoint,
    /// The number of the first byte of the payload, or with SYN the number before it.
    pub sequence: u32,
    /// The number of the byte that the sender wants next, where ACK is set.
    pub acknowledgement: u32,
    /// Four of the control bits: SYN, FIN, RST and ACK. RFC 9293, section 3.1.
    pub flags: Flags,
}

/// A segment of TCP in a captured packet.
#[derive(Clone, Copy, Debug, PartialEq, Eq)]
pub struct Segment<'a> {
    /// What the headers of IP and TCP say; in a tunnel those of the innermost packet.
    pub head: SegmentHead,
    /// Where in the packet the payload begins, in bytes.
    pub offset: usize,
    /// The bytes of the payload that were captured. What pads the packet is not among them.
    pub payload: &'a [u8],
    /// How many bytes more the payload had that were not captured, by the word of IP's header.
    pub missing: usize,
}

/// The segment of TCP in a packet that was captured on a link of this type, of which the packet had `original` bytes; or the
/// first reason, from the outer header to the inner, why there is none.
///
/// Tunnels are opened, up to four in one another: IP in IP, GRE, and VXLAN.
///
/// Checksums are not looked at, since network cards make them after a sender's packet was captured. Where a header of IP says
/// the length 0, as it does of what a network card is to cut into segments, IP carries all that the packet had.
///
/// # Errors
///
/// The first reason, from the outer header to the inner, why there is no segment.
#[inline]
pub fn read_segment(link: LinkType, packet: &[u8], original: u32) -> Result<Segment<'_>, NoSegment> {
    let beyond = (original as usize).saturating_sub(packet.len());
    let ip = ip_packet(link, packet)?;
    let carried = innermost(ip, beyond)?;
    let header = header_length(&carried)?;
    Ok(Segment {
        head: head_of(&carried),
        offset: packet.len() - carried.bytes.len() + header,
        payload: payload_of(&carried, header),
        missing: carried.size.saturating_sub(carried.bytes.len()),
    })
}

/// The bytes after a header of this length that were captured of those that IP carries.
#[inline]
fn payload_of<'a>(carried: &Carried<'a>, header: usize) -> &'a [u8] {
    let captured = carried.bytes.len().min(carried.size);
    &carried.bytes[header..captured]
}

/// What the headers say, of which all of TCP's was captured.
#[inline]
fn head_of(carried: &Carried<'_>) -> SegmentHead {
    let bytes = carried.bytes;
    SegmentHead {
        source: Endpoint {
            address: carried.source,
            port: number_16(bytes, 0),
        },
        destination: Endpoint {
            address: carried.destination,
            port: number_16(bytes, 2),
        },
        sequence: number_32(bytes, 4),
        acknowledgement: number_32(bytes, 8),
        flags: Flags::of_byte(bytes[13]),
    }
}
