// Written by dist/erase from crates/cqlp_packet_order/src/lib.rt.
//! Captured packets, put in the order of their times within a window.

mod limits;
mod order;
mod packet;

pub use limits::{OrderCounts, OrderLimits};
pub use order::PacketOrder;
pub use packet::{KeptPacket, Packet};
