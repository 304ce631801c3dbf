// Written by dist/erase from crates/cqlp_tcp_reassembly/src/sequence.rt.
//! Sequence numbers, which wrap at 2^32.

/// How far a sequence number is from another. RFC 9293, section 3.4.
#[derive(Clone, Copy, Debug, PartialEq, Eq)]
pub enum Distance {
    /// So many numbers after it: less than 2^31.
    Ahead(u32),
    /// So many numbers before it: 1 to 2^31.
    Behind(u32),
}

/// How far this sequence number is from another, by the shorter way.
#[must_use]
pub fn distance_to(sequence: u32, from: u32) -> Distance {
    let ahead = sequence.wrapping_sub(from);
    if ahead < 0x8000_0000 {
        Distance::Ahead(ahead)
    } else {
        Distance::Behind(from.wrapping_sub(sequence))
    }
}
