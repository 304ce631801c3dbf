// Written by dist/erase from crates/cqlp_tcp_connections/src/ports.rt.
//! For each port, how many segments had it.

use crate::kit_host::prelude::{KitVec, Vec};
use crate::cqlp_tcp_segment::SegmentHead;
use crate::kit_std::alloc::{AllocError};

/// How many ports there are.
const PORTS: usize = 65_536;

/// For each port, how many segments had it.
pub(crate) struct PortCounts {
    counts: Vec<u64>,
}

impl PortCounts {
    /// Where no segment had any. It takes 512 KiB.
    pub(crate) fn new() -> Result<Self, AllocError> {
        let mut counts = Vec::new();
        counts.kit_resize(PORTS, 0)?;
        Ok(PortCounts { counts })
    }

    /// Counts a segment.
    pub(crate) fn count(&mut self, head: &SegmentHead) {
        self.count_port(head.source.port);
        if head.source.port != head.destination.port {
            self.count_port(head.destination.port);
        }
    }

    fn count_port(&mut self, port: u16) {
        let at = port as usize;
        self.counts[at] = self.counts[at].saturating_add(1);
    }

    /// The three ports that most segments had, and how many; of ports with as many the lower one first. 0 with 0, where there are
    /// fewer.
    pub(crate) fn busiest(&self) -> [(u16, u64); 3] {
        let mut best = Three {
            first: (0, 0),
            second: (0, 0),
            third: (0, 0),
        };
        for port in 0..self.counts.len() {
            let count = self.counts[port];
            if count > 0 {
                best.place((port as u16, count));
            }
        }
        [best.first, best.second, best.third]
    }
}

/// Ports, and how many segments had them: the most first.
#[derive(Clone, Copy)]
struct Three {
    first: (u16, u64),
    second: (u16, u64),
    third: (u16, u64),
}

impl Three {
    /// A port goes before those that fewer segments had, of which the last falls out. Most ports had none, so this is out of line.
    #[cold]
    #[inline(never)]
    fn place(&mut self, port: (u16, u64)) {
        if self.first.1 < port.1 {
            self.third = self.second;
            self.second = self.first;
            self.first = port;
        } else if self.second.1 < port.1 {
            self.third = self.second;
            self.second = port;
        } else if self.third.1 < port.1 {
            self.third = port;
        }
    }
}
