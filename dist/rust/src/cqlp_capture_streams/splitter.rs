// Written by dist/erase from crates/cqlp_capture_streams/src/splitter.rt.
//! The packets of a capture, on their way to connections.

use crate::kit_host::prelude::{KitVec};
use crate::cqlp_capture_streams::connection_event::ConnectionEvent;
use crate::cqlp_capture_streams::fault::StreamsFault;
use crate::cqlp_capture_streams::listener::Listener;
use crate::cqlp_capture_streams::packets::PacketCounts;
use crate::cqlp_capture_streams::reporting::{finish_all, take_segment};
use crate::cqlp_capture::{CaptureEvent, PacketHead};
use crate::cqlp_packet_order::{KeptPacket, OrderCounts, Packet, PacketOrder};
use crate::cqlp_tcp_connections::{ConnectionCounts, Connections};
use crate::cqlp_tcp_segment::{LinkType, NoSegment, Segment, read_segment};
use crate::kit_std::alloc::{AllocError};

/// Takes the events of a capture, puts its packets in order, and has the segments in them taken by their connections.
pub(crate) struct Splitter {
    connections: Connections,
    order: PacketOrder,
    /// Of the packet that began: the link type's number, when it was captured, and how many bytes it had.
    link: u16,
    time: Option<u64>,
    original: u32,
    counts: PacketCounts,
}

impl Splitter {
    /// At the start of a capture, whose connections have this table, and whose packets this window.
    pub fn new(connections: Connections, order: PacketOrder) -> Self {
        Splitter {
            connections,
            order,
            link: 0,
            time: None,
            original: 0,
            counts: PacketCounts::NONE,
        }
    }

    /// What packets were.
    pub fn packet_counts(&self) -> PacketCounts {
        self.counts
    }

    /// How many packets were out of order.
    pub fn order_counts(&self) -> OrderCounts {
        self.order.counts()
    }

    /// What the table of connections has counted.
    pub fn connection_counts(&self) -> ConnectionCounts {
        self.connections.counts()
    }

    /// Where no connection began, the ports that most segments have. Else none, since they are not written then.
    pub fn busiest_elsewhere(&self) -> [(u16, u64); 3] {
        if self.connections.counts().connections > 0 {
            [(0, 0), (0, 0), (0, 0)]
        } else {
            self.connections.busiest()
        }
    }

    /// Counts a further file, and the one before it where that was cut.
    pub fn count_file(&mut self, was_cut: bool) {
        self.counts.count_file(was_cut);
    }

    fn begin_packet(&mut self, head: &PacketHead) {
        self.link = head.link;
        self.time = head.time;
        self.original = head.original;
    }

    /// Whether a segment is of a connection, and not all of its payload was captured.
    fn is_snapped(&self, segment: &Segment<'_>) -> bool {
        segment.missing > 0 && self.connections.asks_for(&segment.head)
    }
}

impl Splitter {
    /// Takes the next event, and reports what it means for connections. A packet whose bytes are here waits for those that were captured before
    /// it, unless it passes as it is.
    #[inline]
    pub fn take<L: Listener>(
        &mut self,
        event: &CaptureEvent<'_>,
        listener: &mut L,
    ) -> Result<(), StreamsFault> {
        match event {
            CaptureEvent::Section(_) | CaptureEvent::Interface(_) => Ok(()),
            CaptureEvent::Packet(head) => {
                self.begin_packet(head);
                Ok(())
            }
            CaptureEvent::Data(bytes) => {
                let packet = Packet {
                    link: self.link,
                    time: self.time,
                    original: self.original,
                    bytes,
                };
                if self.order.pass(&packet) {
                    return self.take_packet(&packet, listener);
                }
                match self.order.kit_push(&packet) {
                    Ok(()) => self.hand_on_due(listener),
                    Err(AllocError) => Err(StreamsFault::NoMemory),
                }
            }
            CaptureEvent::Skipped(why) => {
                self.counts.count_skipped(*why);
                Ok(())
            }
        }
    }

    /// At the end of the capture: has the packets leave that wait, and then all connections.
    pub fn finish<L: Listener>(&mut self, listener: &mut L) -> Result<(), StreamsFault> {
        self.hand_on_all(listener)?;
        finish_all(&mut self.connections, listener)
    }

    /// Has the packets leave that are to.
    fn hand_on_due<L: Listener>(&mut self, listener: &mut L) -> Result<(), StreamsFault> {
        while let Some(kept) = self.order.pop_due() {
            self.take_kept(kept, listener)?;
        }
        Ok(())
    }

    /// Has all packets leave.
    fn hand_on_all<L: Listener>(&mut self, listener: &mut L) -> Result<(), StreamsFault> {
        while let Some(kept) = self.order.pop() {
            self.take_kept(kept, listener)?;
        }
        Ok(())
    }

    /// Takes a packet that has left the window, and gives its memory back.
    fn take_kept<L: Listener>(
        &mut self,
        kept: KeptPacket,
        listener: &mut L,
    ) -> Result<(), StreamsFault> {
        let answer = self.take_packet(&kept.as_packet(), listener);
        self.order.give_back(kept);
        answer
    }

    /// Takes a packet whose turn has come. If it has a segment, reports that one comes, and then what it delivers.
    fn take_packet<L: Listener>(
        &mut self,
        packet: &Packet<'_>,
        listener: &mut L,
    ) -> Result<(), StreamsFault> {
        match segment_in(packet) {
            Ok(segment) => {
                let is_snapped = self.is_snapped(&segment);
                self.counts.count_segment(is_snapped);
                let time = packet.time;
                listener.hear(&ConnectionEvent::Packet { time })?;
                take_segment(time, &mut self.connections, &segment, listener)
            }
            Err(why) => {
                self.counts.count_without(why);
                Ok(())
            }
        }
    }
}

/// The segment in a packet.
#[inline]
fn segment_in<'a>(packet: &Packet<'a>) -> Result<Segment<'a>, NoSegment> {
    let link = LinkType::from_number(packet.link)?;
    read_segment(link, packet.bytes, packet.original)
}
