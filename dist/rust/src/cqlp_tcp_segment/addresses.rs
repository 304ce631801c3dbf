// Written by dist/erase from crates/cqlp_tcp_segment/src/addresses.rt.
//! Ends of a connection.

/// An address of IP.
#[derive(Clone, Copy, Debug, PartialEq, Eq, PartialOrd, Ord, Hash)]
pub enum IpAddress {
    /// The four octets of an IPv4 address.
    V4([u8; 4]),
    /// The sixteen octets of an IPv6 address.
    V6([u8; 16]),
}

/// An end of a connection.
#[derive(Clone, Copy, Debug, PartialEq, Eq, PartialOrd, Ord, Hash)]
pub struct Endpoint {
    /// The address of its host, in the header of IP. RFC 791, section 3.1, and RFC 8200, section 3.
    pub address: IpAddress,
    /// The port at its host, in the header of TCP. RFC 9293, section 3.1.
    pub port: u16,
}
