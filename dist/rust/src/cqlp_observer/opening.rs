// Written by dist/erase from crates/cqlp_observer/src/opening.rt.
//! What the first bytes of a direction are.

use crate::cqlp_observer::header_front::HeaderFront;

/// What a direction begins with.
#[derive(Clone, Copy, Debug, PartialEq, Eq)]
pub enum Opening {
    /// Frames of version 4, or bytes of which it is not to be seen what they are.
    Frames,
    /// A frame of this other version of the protocol: 1, 2, 3, 5 or 6.
    OtherVersion(u8),
    /// A record of TLS.
    Tls,
    /// A request or a response of HTTP.
    Http,
}

/// What these first bytes of a direction are, of which the first one begins a frame, where `from_start`. Else nine bytes have to be a header but
/// for their version.
pub(crate) fn opening_with(responses: bool, from_start: bool, bytes: &[u8]) -> Opening {
    if bytes.len() < 2 {
        Opening::Frames
    } else if is_tls(bytes[0], bytes[1]) {
        Opening::Tls
    } else if is_http(responses, bytes) {
        Opening::Http
    } else if is_other_version(responses, bytes[0])
        && (from_start || is_head_of_other(responses, bytes))
    {
        Opening::OtherVersion(version_of(bytes[0]))
    } else {
        Opening::Frames
    }
}

/// Whether a record of TLS begins with these bytes: its kind is handshake or data, and its version 3 and another number.
fn is_tls(kind: u8, version: u8) -> bool {
    (kind == 0x16 || kind == 0x17) && version == 0x03
}

/// Whether a response of HTTP begins so, or a request with one of its usual methods.
fn is_http(responses: bool, bytes: &[u8]) -> bool {
    if responses {
        bytes.starts_with(b"HTTP/")
    } else {
        bytes.starts_with(b"GET ")
            || bytes.starts_with(b"POST ")
            || bytes.starts_with(b"PUT ")
            || bytes.starts_with(b"HEAD ")
            || bytes.starts_with(b"PRI ")
    }
}

/// Whether a header of this direction begins so in another version of the protocol.
fn is_other_version(responses: bool, first: u8) -> bool {
    let version = version_of(first);
    responses == (first >= 0x80) && (version == 5 || version == 6 || (version >= 1 && version <= 3))
}

/// The number of the version in a header's first byte.
fn version_of(first: u8) -> u8 {
    first & 0x7F
}

/// Whether the first nine bytes would be a header of this direction in version 4.
fn is_head_of_other(responses: bool, bytes: &[u8]) -> bool {
    let own = if responses { [0x84] } else { [0x04] };
    let front = HeaderFront::new().with(&own).with(&bytes[1..]);
    front.head(responses).is_some()
}
