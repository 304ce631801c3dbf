// Written by dist/erase from crates/cqlp_tcp_segment/src/reason.rt.
//! Why a packet has no segment.

/// Why a captured packet is no segment of TCP, or none that can be read: the first reason from the outer header to the inner.
#[derive(Clone, Copy, Debug, PartialEq, Eq, PartialOrd, Ord, Hash)]
pub enum NoSegment {
    /// The link type is none of those that are known.
    UnknownLink,
    /// The capture ends within the header of a link, within tags or labels, or within the header of a session of PPPoE.
    CutInLink,
    /// A link or a tunnel carries something else than IP, or the packet's version of IP is not the one that it says.
    NotIp,
    /// The capture ends within the header of IP, or within an extension header of IPv6.
    CutInIp,
    /// A length in the header of IP is less than the header, or an extension header is longer than what IP carries.
    BadIpLength,
    /// A fragment that is not the whole packet: its bytes are no whole segment.
    Fragment,
    /// IP carries something else than TCP, and no tunnel that is opened.
    NotTcp,
    /// The capture, or what IP carries, ends within the header of a tunnel.
    CutInTunnel,
    /// A tunnel in four others.
    TooManyTunnels,
    /// The capture ends within the header of TCP.
    CutInTcp,
    /// The header of TCP is shorter than 20 bytes, or longer than what IP carries.
    BadTcpLength,
}
