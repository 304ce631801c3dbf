// Written by dist/erase from crates/cqlp_tcp_segment/src/ip.rt.
//! Headers of IP.

use crate::cqlp_tcp_segment::addresses::IpAddress;
use crate::cqlp_tcp_segment::ether_type::{IpPacket, IpVersion};
use crate::cqlp_tcp_segment::fields::number_16;
use crate::cqlp_tcp_segment::reason::NoSegment;

/// The number of IPv6's header of a fragment.
const FRAGMENT: u8 = 44;

/// The number of the header that authenticates a packet.
const AUTHENTICATION: u8 = 51;

/// What a packet of IP carries.
#[derive(Clone, Copy)]
pub(crate) struct Carried<'a> {
    pub source: IpAddress,
    pub destination: IpAddress,
    /// The number of the protocol of what it carries.
    pub protocol: u8,
    /// How many bytes it carries, by the word of IP's header.
    pub size: usize,
    /// What was captured from the first of them on; past `size` it is padding.
    pub bytes: &'a [u8],
}

/// What comes after the extension headers of a packet of IPv6.
#[derive(Clone, Copy)]
pub(crate) struct Upper<'a> {
    /// The number of its protocol.
    pub protocol: u8,
    /// How many bytes it has, by the word of IPv6's header.
    pub size: usize,
    /// What was captured from the first of them on.
    pub bytes: &'a [u8],
}

/// What a packet of IP carries that had this many bytes beyond those that were captured.
#[inline]
pub(crate) fn carried_by(ip: IpPacket<'_>, beyond: usize) -> Result<Carried<'_>, NoSegment> {
    match ip.version {
        IpVersion::V4 => carried_by_4(ip.bytes, beyond),
        IpVersion::V6 => carried_by_6(ip.bytes, beyond),
    }
}

/// A length in a header of IP, or the length of all that there was where it is 0.
#[inline]
fn length_or_all(said: u16, bytes: &[u8], beyond: usize) -> usize {
    match said {
        0 => bytes.len() + beyond,
        said => said as usize,
    }
}

/// What a packet of IPv4 carries. RFC 791, section 3.1.
#[inline]
fn carried_by_4(bytes: &[u8], beyond: usize) -> Result<Carried<'_>, NoSegment> {
    if bytes.len() < 20 {
        return Err(NoSegment::CutInIp);
    }
    if bytes[0] >> 4 != 4 {
        return Err(NoSegment::NotIp);
    }
    let header = (bytes[0] % 16) as usize * 4;
    let total = length_or_all(number_16(bytes, 2), bytes, beyond);
    if header < 20 || total < header {
        return Err(NoSegment::BadIpLength);
    }
    if number_16(bytes, 6) % 0x4000 != 0 {
        return Err(NoSegment::Fragment);
    }
    if bytes.len() < header {
        return Err(NoSegment::CutInIp);
    }
    Ok(Carried {
        source: IpAddress::V4([bytes[12], bytes[13], bytes[14], bytes[15]]),
        destination: IpAddress::V4([bytes[16], bytes[17], bytes[18], bytes[19]]),
        protocol: bytes[9],
        size: total - header,
        bytes: &bytes[header..],
    })
}

/// What a packet of IPv6 carries, after its extension headers. RFC 8200, sections 3 and 4.
fn carried_by_6(bytes: &[u8], beyond: usize) -> Result<Carried<'_>, NoSegment> {
    if bytes.len() < 40 {
        return Err(NoSegment::CutInIp);
    }
    if bytes[0] >> 4 != 6 {
        return Err(NoSegment::NotIp);
    }
    let (_, rest) = bytes.split_at(40);
    let size = length_or_all(number_16(bytes, 4), rest, beyond);
    let upper = past_extensions(bytes[6], size, rest)?;
    Ok(Carried {
        source: address_6(&bytes[8..24]),
        destination: address_6(&bytes[24..40]),
        protocol: upper.protocol,
        size: upper.size,
        bytes: upper.bytes,
    })
}

/// The address in these sixteen bytes.
fn address_6(octets: &[u8]) -> IpAddress {
    match octets.try_into() {
        Ok(octets) => IpAddress::V6(octets),
        Err(_) => unreachable!(),
    }
}

/// What comes after the extension headers, of which the first is of this kind; they and it have `size` bytes.
fn past_extensions(kind: u8, size: usize, bytes: &[u8]) -> Result<Upper<'_>, NoSegment> {
    let mut kind = kind;
    let mut size = size;
    let mut bytes = bytes;
    while is_extension(kind) {
        if bytes.len() < 2 {
            return Err(NoSegment::CutInIp);
        }
        let header = 8 + unit(kind) * bytes[1] as usize;
        if size < header {
            return Err(NoSegment::BadIpLength);
        }
        if bytes.len() < header {
            return Err(NoSegment::CutInIp);
        }
        if is_part(kind, number_16(bytes, 2)) {
            return Err(NoSegment::Fragment);
        }
        kind = bytes[0];
        size -= header;
        bytes = &bytes[header..];
    }
    Ok(Upper {
        protocol: kind,
        size,
        bytes,
    })
}

/// Whether an extension header may be passed over: options for each hop, routing, that of a fragment which is the whole packet,
/// authentication, and options for the destination.
fn is_extension(kind: u8) -> bool {
    matches!(kind, 0 | 43 | FRAGMENT | AUTHENTICATION | 60)
}

/// In how many bytes an extension header's second byte counts those after the first eight.
fn unit(kind: u8) -> usize {
    match kind {
        FRAGMENT => 0,
        AUTHENTICATION => 4,
        _ => 8,
    }
}

/// Whether a header with this number in its third and fourth byte says that the packet is a fragment and not whole.
fn is_part(kind: u8, number: u16) -> bool {
    kind == FRAGMENT && !(number / 8 == 0 && number % 2 == 0)
}
