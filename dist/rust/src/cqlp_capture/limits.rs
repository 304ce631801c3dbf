// Written by dist/erase from crates/cqlp_capture/src/limits.rt.
//! The limits that a caller sets.

/// What a reader of captures holds at most.
#[derive(Clone, Copy, Debug, PartialEq, Eq)]
pub struct CaptureLimits {
    /// The captured bytes of one packet: 64 to 16,777,216.
    pub packet: u32,
    /// The interfaces of one section: 1 to 65,536.
    pub interfaces: u32,
}

impl CaptureLimits {
    /// The least limit on a packet.
    pub const LEAST_PACKET: u32 = 64;

    /// The greatest limit on a packet.
    pub const GREATEST_PACKET: u32 = 16_777_216;

    /// The greatest limit on interfaces. The least is 1.
    pub const GREATEST_INTERFACES: u32 = 65_536;

    /// The limits where none are given: 1 MiB of a packet, four times as much as a capture of whole packets takes of one, and 256
    /// interfaces.
    pub const DEFAULT: CaptureLimits = CaptureLimits {
        packet: 1_048_576,
        interfaces: 256,
    };

    /// Whether the limits are in their ranges.
    #[must_use]
    pub fn is_in_range(&self) -> bool {
        CaptureLimits::LEAST_PACKET <= self.packet
            && self.packet <= CaptureLimits::GREATEST_PACKET
            && 1 <= self.interfaces
            && self.interfaces <= CaptureLimits::GREATEST_INTERFACES
    }
}
