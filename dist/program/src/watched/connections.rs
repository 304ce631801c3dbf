//! What a table of connections reports of the segments of a capture.
use super::{Asked, Packet, fold};
use crate::cqlp_tcp_connections::{ConnectionTotals, Connections, Departure, DirectionTotals, Admission, Delivery, Way};
use crate::cqlp_tcp_reassembly::{GapCause, StreamStep};
use crate::cqlp_tcp_segment::Segment;
use crate::heap::refusing;
use crate::kit_std::alloc::AllocError;
use std::fmt::Write;

/// What was reported of one direction of a connection.
#[derive(Default)]
struct Heard {
    bytes: u64,
    sum: u32,
    said: String,
}

/// What was reported of all connections, in the order of their numbers, requests and responses; and a line for each direction of those that left.
struct Listener {
    connections: Connections,
    /// Whether each call of the table is made without memory first.
    is_poor: bool,
    pairs: Vec<[Heard; 2]>,
    said: String,
}

/// A line for each direction of a connection in a capture, when it leaves, and what was counted. The same is reported where each call is refused
/// memory first, and made again if it says so; and each request of `new` is needed.
pub fn said(asked: Asked, packets: &[Packet]) -> String {
    let make = || Connections::new(asked.limits, &[asked.port]);
    let needed = refusing(u64::MAX, u64::MAX, || make().is_ok()).1;
    for number in 1..=needed {
        assert!(refusing(number, number, || make().is_err()).0, "made without request {number}");
    }
    let heard = [false, true].map(|is_poor| {
        let connections = make().unwrap_or_else(|_| panic!("no memory"));
        Listener { connections, is_poor, pairs: Vec::new(), said: String::new() }.hear(packets)
    });
    assert_eq!(heard[0], heard[1], "without memory");
    heard.into_iter().next().unwrap()
}

impl Listener {
    /// What a call of the table answers.
    fn ask<T>(&mut self, call: impl Fn(&mut Connections) -> Result<T, AllocError>) -> T {
        if self.is_poor && let Ok(answer) = refusing(1, u64::MAX, || call(&mut self.connections)).0 {
            return answer;
        }
        call(&mut self.connections).unwrap_or_else(|_| panic!("no memory"))
    }

    /// What a call answers that takes no memory.
    fn ask_plainly<T>(&mut self, call: impl Fn(&mut Connections) -> T) -> T {
        self.ask(|connections| Ok(call(connections)))
    }

    /// Hands all segments of a capture to the table, and then ends it.
    fn hear(mut self, packets: &[Packet]) -> String {
        for segment in packets.iter().filter_map(|packet| packet.segment().ok()) {
            self.take(&segment);
        }
        self.end();
        self.said
    }

    fn take(&mut self, segment: &Segment<'_>) {
        for _ in 0..3 {
            match self.ask(|connections| connections.take(&segment.head)) {
                Admission::Foreign => return,
                Admission::Crowded { number, is_full } => {
                    writeln!(self.said, "{number} leaves, full {is_full}").unwrap();
                    self.leave();
                }
                Admission::Taken { number, .. } => {
                    self.pairs.resize_with(self.pairs.len().max(number as usize), Default::default);
                    while let Some(delivery) = self.ask(|connections| connections.pull(segment, None)) {
                        self.note(delivery, segment.payload);
                    }
                    return;
                }
            }
        }
        panic!("a segment is never taken");
    }

    fn leave(&mut self) {
        loop {
            match self.ask_plainly(|connections| connections.leave()) {
                Departure::Delivery(delivery) => self.note(delivery, &[]),
                Departure::Left(totals) => return self.put(&totals),
                Departure::Empty => return,
            }
        }
    }

    fn end(&mut self) {
        loop {
            match self.ask_plainly(|connections| connections.finish()) {
                Departure::Delivery(delivery) => self.note(delivery, &[]),
                Departure::Left(totals) => self.put(&totals),
                Departure::Empty => break,
            }
        }
        let counts = self.ask_plainly(|connections| connections.counts());
        writeln!(self.said, "connections {} crowded {} foreign {}", counts.connections, counts.crowded, counts.foreign).unwrap();
    }

    /// Adds a delivery to what was reported of its direction.
    fn note(&mut self, delivery: Delivery, payload: &[u8]) {
        let bytes = match delivery.step {
            StreamStep::Payload { from, count } => payload[from..from + count].to_vec(),
            StreamStep::Held { .. } => self.connections.held(delivery.way).to_vec(),
            _ => Vec::new(),
        };
        if matches!(delivery.step, StreamStep::Held { .. }) {
            self.ask_plainly(|connections| connections.pass_held(delivery.way));
        }
        let heard = &mut self.pairs[delivery.number as usize - 1][delivery.way as usize];
        heard.sum = fold(heard.sum, &bytes);
        heard.bytes += bytes.len() as u64;
        heard.said += &match delivery.step {
            StreamStep::Payload { .. } | StreamStep::Held { .. } | StreamStep::Kept => String::new(),
            StreamStep::Began { syn } => format!("began {syn} "),
            StreamStep::Gap { length, cause: GapCause::Lost, .. } => format!("gap {length} at {} ", delivery.at),
            StreamStep::Gap { length, cause: GapCause::Snapped, .. } => format!("cut {length} at {} ", delivery.at),
            StreamStep::Ended => "ended ".to_string(),
            StreamStep::Reset => "reset ".to_string(),
            StreamStep::Done => "done ".to_string(),
        };
    }

    /// Writes down what was reported of a connection that has left.
    fn put(&mut self, totals: &ConnectionTotals) {
        let pair = &self.pairs[totals.number as usize - 1];
        for (way, total) in [(Way::Requests, &totals.requests), (Way::Responses, &totals.responses)] {
            let Heard { bytes, sum, said } = &pair[way as usize];
            let name = if way == Way::Requests { "requests" } else { "responses" };
            assert_eq!(total.bytes, *bytes);
            writeln!(self.said, "{} {name} {said}bytes {bytes} sum {sum} segments {}", totals.number, total.segments).unwrap();
        }
    }
}
