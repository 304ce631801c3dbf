// Written by dist/erase from crates/cqlp_tcp_segment/src/ether_type.rt.
//! What an EtherType leads to.

use crate::cqlp_tcp_segment::fields::number_16;
use crate::cqlp_tcp_segment::reason::NoSegment;

/// A version of IP.
#[derive(Clone, Copy)]
pub(crate) enum IpVersion {
    V4,
    V6,
}

/// A packet of IP in a captured packet.
#[derive(Clone, Copy)]
pub(crate) struct IpPacket<'a> {
    pub version: IpVersion,
    /// The bytes from the header of IP on, with what pads the packet.
    pub bytes: &'a [u8],
}

/// The packet of IP after an EtherType: behind tags, and behind labels of MPLS or the header of a session of PPPoE.
#[inline]
pub(crate) fn after_ether_type(ether_type: u16, bytes: &[u8]) -> Result<IpPacket<'_>, NoSegment> {
    let (ether_type, bytes) = untagged(ether_type, bytes)?;
    match ether_type {
        0x0800 => Ok(IpPacket {
            version: IpVersion::V4,
            bytes,
        }),
        0x86DD => Ok(IpPacket {
            version: IpVersion::V6,
            bytes,
        }),
        0x8847 | 0x8848 => after_labels(bytes),
        0x8864 => after_session(bytes),
        _ => Err(NoSegment::NotIp),
    }
}

/// The EtherType after all tags, and the bytes after it.
#[inline]
fn untagged(ether_type: u16, bytes: &[u8]) -> Result<(u16, &[u8]), NoSegment> {
    let mut ether_type = ether_type;
    let mut bytes = bytes;
    while is_tag(ether_type) {
        if bytes.len() < 4 {
            return Err(NoSegment::CutInLink);
        }
        ether_type = number_16(bytes, 2);
        bytes = &bytes[4..];
    }
    Ok((ether_type, bytes))
}

/// Whether an EtherType is that of a tag of a virtual network.
#[inline]
fn is_tag(ether_type: u16) -> bool {
    matches!(ether_type, 0x8100 | 0x88A8 | 0x9100)
}

/// The packet of IP after labels of MPLS, which end with the first whose bit says so. RFC 3032, section 2.1.
fn after_labels(bytes: &[u8]) -> Result<IpPacket<'_>, NoSegment> {
    let mut bytes = bytes;
    while bytes.len() >= 4 {
        let is_last = bytes[2] % 2 == 1;
        bytes = &bytes[4..];
        if is_last {
            return with_version(bytes);
        }
    }
    Err(NoSegment::CutInLink)
}

/// The packet of IP in a session of PPPoE. RFC 2516, section 4.
fn after_session(bytes: &[u8]) -> Result<IpPacket<'_>, NoSegment> {
    if bytes.len() < 8 {
        return Err(NoSegment::CutInLink);
    }
    if number_16(bytes, 0) != 0x1100 {
        return Err(NoSegment::NotIp);
    }
    let version = match number_16(bytes, 6) {
        0x0021 => IpVersion::V4,
        0x0057 => IpVersion::V6,
        _ => return Err(NoSegment::NotIp),
    };
    Ok(IpPacket {
        version,
        bytes: &bytes[8..],
    })
}

/// The packet of IP of which these are the bytes, of the version that its first byte says.
pub(crate) fn with_version(bytes: &[u8]) -> Result<IpPacket<'_>, NoSegment> {
    let version = raw_version(bytes)?;
    Ok(IpPacket { version, bytes })
}

/// The version of IP that the first byte says.
fn raw_version(packet: &[u8]) -> Result<IpVersion, NoSegment> {
    match packet {
        [] => Err(NoSegment::CutInIp),
        [first, ..] => match first >> 4 {
            4 => Ok(IpVersion::V4),
            6 => Ok(IpVersion::V6),
            _ => Err(NoSegment::NotIp),
        },
    }
}
