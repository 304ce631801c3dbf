// Written by dist/erase from crates/cqlp_packet_order/src/order.rt.
//! A window in which packets wait for those that were captured before them.

use crate::kit_host::prelude::{KitVec, Vec};
use crate::cqlp_packet_order::limits::{OrderCounts, OrderLimits};
use crate::cqlp_packet_order::packet::{KeptPacket, Packet};
use crate::kit_std::alloc::{AllocError};
use crate::kit_std::collections::VecDeque;

/// Of how many packets that have left the memory is kept.
const SPARES: usize = 64;

/// Packets in the order of their times, within a window.
///
/// Of each packet `pass` says whether it may pass as it is; where it may not, `push` keeps a copy. Then `pop_due` gives the packets that
/// are to leave, one after the other, until it says `None`. At the end of the file `pop` gives all that wait. Packets of one time stay
/// in the order in which they came. A packet without a time waits for none and lets none wait: all that came before it leave, and then it.
///
/// A late packet, of an earlier time than one that has left, leaves next. Memory is taken for packets that wait. `give_back` keeps that of a packet
/// which has left for those that come: that of 64 packets at most, and of each at most its share of the bytes that may wait.
pub struct PacketOrder {
    limits: OrderLimits,
    waiting: VecDeque<KeptPacket>,
    /// Memory of packets that have left.
    spare: Vec<Vec<u8>>,
    /// How many bytes the packets that wait have.
    held: usize,
    /// The latest time of the packets that have left; 0 where there is none.
    passed: u64,
    counts: OrderCounts,
}

impl PacketOrder {
    /// With no packets. It takes no memory but for the allocator's copy.
    pub fn new(limits: OrderLimits) -> Result<Self, AllocError> {
        let waiting = VecDeque::new();
        let spare = Vec::new();
        Ok(PacketOrder {
            limits,
            waiting,
            spare,
            held: 0,
            passed: 0,
            counts: OrderCounts::NONE,
        })
    }

    /// What was out of order.
    pub fn counts(&self) -> OrderCounts {
        self.counts
    }

    /// Whether this packet passes at once, so that it need not be kept: none waits, and the window is off, or the packet is late, has no
    /// time, or has more bytes than may wait. If so it has passed.
    pub fn pass(&mut self, packet: &Packet<'_>) -> bool {
        if self.waiting.len() != 0 || !self.is_due_alone(packet) {
            return false;
        }
        self.counts.count(
            is_late(self.passed, packet.time),
            true,
            self.limits.packets == 0,
        );
        self.passed = passed_with(packet.time, self.passed);
        true
    }

    /// Whether a packet leaves as soon as it comes, where none waits.
    fn is_due_alone(&self, packet: &Packet<'_>) -> bool {
        must_leave(
            &self.limits,
            self.passed,
            Waiting {
                count: 1,
                bytes: packet.bytes.len(),
                first: packet.time,
                last: packet.time,
            },
        )
    }

    /// Keeps a copy of a packet, behind all but those at the end that are later. Where memory is refused nothing has changed.
    pub fn kit_push(&mut self, packet: &Packet<'_>) -> Result<(), AllocError> {
        let Some(held) = self.held.checked_add(packet.bytes.len()) else {
            return Err(AllocError);
        };
        let at = self.place(packet.time);
        let kept = KeptPacket::copy_of(packet, take_room(&mut self.spare)?)?;
        let is_last = at == self.waiting.len();
        let Ok(()) = self.waiting.insert(at, kept) else {
            return Err(AllocError);
        };
        self.held = held;
        self.counts.count(
            is_late(self.passed, packet.time),
            is_last,
            self.limits.packets == 0,
        );
        Ok(())
    }

    /// Keeps the memory of a packet that has left for those that come, if it is small, and few have some.
    pub fn give_back(&mut self, packet: KeptPacket) {
        let most = self.limits.packets as usize;
        let has_room = most > 0 && self.spare.len() < SPARES;
        if has_room && packet.bytes.capacity() <= self.limits.bytes / most {
            let _ = self.spare.kit_push(packet.bytes);
        }
    }

    /// How many of the packets that wait stay before one of this time.
    fn place(&self, time: Option<u64>) -> usize {
        let mut at = self.waiting.len();
        while at > 0 && is_later(self.waiting[at - 1].time, time) {
            at -= 1;
        }
        at
    }

    /// The next packet that has to leave, since a limit is passed, or it is late, or one that waits has no time. `None` where none has to.
    pub fn pop_due(&mut self) -> Option<KeptPacket> {
        if self.is_due() { self.pop() } else { None }
    }

    fn is_due(&self) -> bool {
        let count = self.waiting.len();
        if count == 0 {
            return false;
        }
        must_leave(
            &self.limits,
            self.passed,
            Waiting {
                count,
                bytes: self.held,
                first: self.waiting[0].time,
                last: self.waiting[count - 1].time,
            },
        )
    }

    /// The first packet that waits, which leaves.
    pub fn pop(&mut self) -> Option<KeptPacket> {
        let Some(packet) = self.waiting.pop_front() else {
            return None;
        };
        self.held -= packet.bytes.len();
        self.passed = passed_with(packet.time, self.passed);
        Some(packet)
    }
}

/// Memory for a packet, that of one that has left if there is some.
fn take_room(
    spare: &mut Vec<Vec<u8>>,
) -> Result<Vec<u8>, AllocError> {
    match spare.pop() {
        Some(room) => Ok(room),
        None => Ok(Vec::new()),
    }
}

/// Packets that wait: how many, with how many bytes, and the times of the first and the last.
#[derive(Clone, Copy)]
struct Waiting {
    count: usize,
    bytes: usize,
    first: Option<u64>,
    last: Option<u64>,
}

/// Whether the first of them has to leave.
#[inline]
fn must_leave(limits: &OrderLimits, passed: u64, waiting: Waiting) -> bool {
    waiting.count > limits.packets as usize
        || waiting.bytes > limits.bytes
        || is_past(limits.nanoseconds, passed, waiting.first, waiting.last)
}

/// Whether the first time is later. One that is not known is not.
#[inline]
fn is_later(one: Option<u64>, other: Option<u64>) -> bool {
    match (one, other) {
        (Some(one), Some(other)) => one > other,
        (None, _) | (_, None) => false,
    }
}

#[inline]
fn is_late(passed: u64, time: Option<u64>) -> bool {
    is_later(Some(passed), time)
}

/// Whether packets of these times were captured too far apart, or the first is late, or one has no time.
#[inline]
fn is_past(nanoseconds: u64, passed: u64, first: Option<u64>, last: Option<u64>) -> bool {
    match (first, last) {
        (Some(first), Some(last)) => first < passed || last.saturating_sub(first) > nanoseconds,
        (None, _) | (_, None) => true,
    }
}

#[inline]
fn passed_with(time: Option<u64>, passed: u64) -> u64 {
    match time {
        Some(time) => passed.max(time),
        None => passed,
    }
}
