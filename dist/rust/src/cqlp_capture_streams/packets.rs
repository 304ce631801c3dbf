// Written by dist/erase from crates/cqlp_capture_streams/src/packets.rt.
//! What the packets of a capture were, in numbers.

use crate::cqlp_capture_streams::skipped::SkippedCounts;
use crate::cqlp_capture::SkipReason;
use crate::cqlp_tcp_segment::NoSegment;

/// Packets without a segment of TCP, by the reason. A number stays at 2^64 - 1 once it is there.
#[derive(Clone, Copy)]
pub struct WithoutCounts {
    pub unknown_link: u64,
    pub cut_in_link: u64,
    pub not_ip: u64,
    pub cut_in_ip: u64,
    pub bad_ip_length: u64,
    pub fragment: u64,
    pub not_tcp: u64,
    pub cut_in_tunnel: u64,
    pub too_many_tunnels: u64,
    pub cut_in_tcp: u64,
    pub bad_tcp_length: u64,
}

/// What packets were. A number stays at 2^64 - 1 once it is there.
#[derive(Clone, Copy)]
pub struct PacketCounts {
    pub packets: u64,
    /// Packets with a segment of TCP.
    pub segments: u64,
    /// Those of connections of which not all of the payload was captured, since the packet was cut.
    pub snapped: u64,
    pub without: WithoutCounts,
    pub skipped: SkippedCounts,
    /// Files that were read after the first.
    pub more_files: u64,
    /// Files that ended within a packet or a block, before the last.
    pub cut_files: u64,
}

impl WithoutCounts {
    /// Counts a packet without a segment, for this reason.
    fn count(&mut self, why: NoSegment) {
        match why {
            NoSegment::UnknownLink => self.unknown_link = self.unknown_link.saturating_add(1),
            NoSegment::CutInLink => self.cut_in_link = self.cut_in_link.saturating_add(1),
            NoSegment::NotIp => self.not_ip = self.not_ip.saturating_add(1),
            NoSegment::CutInIp => self.cut_in_ip = self.cut_in_ip.saturating_add(1),
            NoSegment::BadIpLength => self.bad_ip_length = self.bad_ip_length.saturating_add(1),
            NoSegment::Fragment => self.fragment = self.fragment.saturating_add(1),
            NoSegment::NotTcp => self.not_tcp = self.not_tcp.saturating_add(1),
            NoSegment::CutInTunnel => self.cut_in_tunnel = self.cut_in_tunnel.saturating_add(1),
            NoSegment::TooManyTunnels => {
                self.too_many_tunnels = self.too_many_tunnels.saturating_add(1)
            }
            NoSegment::CutInTcp => self.cut_in_tcp = self.cut_in_tcp.saturating_add(1),
            NoSegment::BadTcpLength => self.bad_tcp_length = self.bad_tcp_length.saturating_add(1),
        }
    }
}

impl PacketCounts {
    pub(crate) const NONE: PacketCounts = PacketCounts {
        packets: 0,
        segments: 0,
        snapped: 0,
        without: WithoutCounts {
            unknown_link: 0,
            cut_in_link: 0,
            not_ip: 0,
            cut_in_ip: 0,
            bad_ip_length: 0,
            fragment: 0,
            not_tcp: 0,
            cut_in_tunnel: 0,
            too_many_tunnels: 0,
            cut_in_tcp: 0,
            bad_tcp_length: 0,
        },
        skipped: SkippedCounts::NONE,
        more_files: 0,
        cut_files: 0,
    };

    /// Counts a packet with a segment, of a connection and cut or not.
    #[inline]
    pub(crate) fn count_segment(&mut self, is_snapped: bool) {
        self.packets = self.packets.saturating_add(1);
        self.segments = self.segments.saturating_add(1);
        if is_snapped {
            self.snapped = self.snapped.saturating_add(1);
        }
    }

    /// Counts a packet without one.
    pub(crate) fn count_without(&mut self, why: NoSegment) {
        self.packets = self.packets.saturating_add(1);
        self.without.count(why);
    }

    /// Counts a further file, and the one before it where that was cut.
    pub(crate) fn count_file(&mut self, was_cut: bool) {
        self.more_files = self.more_files.saturating_add(1);
        if was_cut {
            self.cut_files = self.cut_files.saturating_add(1);
        }
    }

    /// Counts a block, an interface or a packet that cannot be read.
    pub(crate) fn count_skipped(&mut self, why: SkipReason) {
        self.skipped.count(why);
    }
}
