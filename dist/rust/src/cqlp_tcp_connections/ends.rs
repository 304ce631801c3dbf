// Written by dist/erase from crates/cqlp_tcp_connections/src/ends.rt.
//! The ends of connections, and which way a segment goes between them.

use crate::cqlp_tcp_segment::{IpAddress, Endpoint, SegmentHead};
use std::hash::{Hash, Hasher};

/// The port on which nodes of Apache Cassandra listen for CQL.
pub const DEFAULT_PORT: u16 = 9042;

/// Which way the bytes of a direction go.
#[derive(Clone, Copy, PartialEq, Eq)]
pub enum Way {
    /// From the client to the node.
    Requests,
    /// From the node to the client.
    Responses,
}

/// The ends of a connection.
#[derive(Clone, Copy, PartialEq, Eq)]
pub struct Ends {
    /// From which requests come.
    pub client: Endpoint,
    /// From which responses come; its port is asked for.
    pub node: Endpoint,
}

/// Feeds the hasher one number for each end, or two of IPv6. A derived one feeds it each octet by itself.
impl Hash for Ends {
    #[inline]
    fn hash<H: Hasher>(&self, state: &mut H) {
        feed_end(&self.client, state);
        feed_end(&self.node, state);
    }
}

/// Feeds an end to a hasher.
#[inline]
fn feed_end<H: Hasher>(end: &Endpoint, state: &mut H) {
    match end.address {
        IpAddress::V4(octets) => state.write_u64(number_of(octets, end.port)),
        IpAddress::V6(octets) => {
            state.write_u128(u128::from_be_bytes(octets));
            state.write_u16(end.port);
        }
    }
}

/// An IPv4 address and a port as one number.
#[inline]
fn number_of(octets: [u8; 4], port: u16) -> u64 {
    u64::from(u32::from_be_bytes(octets)) * 65536 + u64::from(port)
}

/// The ends of a segment that goes this way.
pub(crate) fn ends_of(way: Way, head: &SegmentHead) -> Ends {
    match way {
        Way::Requests => Ends {
            client: head.source,
            node: head.destination,
        },
        Way::Responses => Ends {
            client: head.destination,
            node: head.source,
        },
    }
}

impl Way {
    /// The other way.
    pub(crate) fn other(self) -> Way {
        match self {
            Way::Requests => Way::Responses,
            Way::Responses => Way::Requests,
        }
    }
}

impl Ends {
    /// Which way a segment goes between them, if it is of theirs.
    #[inline]
    pub(crate) fn way_of(&self, head: &SegmentHead) -> Option<Way> {
        if self.are(&head.source, &head.destination) {
            Some(Way::Requests)
        } else if self.are(&head.destination, &head.source) {
            Some(Way::Responses)
        } else {
            None
        }
    }

    /// Whether they are this client and this node.
    fn are(&self, client: &Endpoint, node: &Endpoint) -> bool {
        is_same(client, &self.client) && is_same(node, &self.node)
    }
}

/// Whether two ends have the same port and address.
fn is_same(end: &Endpoint, other: &Endpoint) -> bool {
    end.port == other.port && end.address == other.address
}

/// Whether this port is asked for.
fn asks(ports: &[u16], port: u16) -> bool {
    ports.iter().any(|asked| *asked == port)
}

/// Which way the first segment of a connection goes, if one of its ports is asked for.
pub(crate) fn first_way(ports: &[u16], head: &SegmentHead) -> Option<Way> {
    let from_node = asks(ports, head.source.port);
    let to_node = asks(ports, head.destination.port);
    match (to_node, from_node) {
        (false, false) => None,
        (true, false) => Some(Way::Requests),
        (false, true) => Some(Way::Responses),
        (true, true) => {
            let is_answer = head.flags.syn && head.flags.ack;
            Some(if is_answer {
                Way::Responses
            } else {
                Way::Requests
            })
        }
    }
}
