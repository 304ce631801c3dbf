//! What is reported of the requests and responses on the connections of a capture.
use super::facts::words;
use super::{Asked, Packet, fold};
use crate::cqlp_note::Prim;
use crate::cqlp_observer::{Extent, Kept, Paired, SeenMessage, Watch, WatchRoom, subject_of};
use crate::cqlp_tcp_connections::{Connections, Departure, Admission, Delivery, Way};
use crate::cqlp_tcp_reassembly::{GapCause, StreamStep};
use crate::cqlp_tcp_segment::Segment;
use crate::heap::refusing;
use crate::kit_std::alloc::AllocError;

/// What is watched of the connections of a capture, in the order of their numbers.
struct Watcher {
    room: WatchRoom,
    watches: Vec<Watch>,
    /// When the present packet was captured.
    time: Option<u64>,
    said: String,
    /// How many requests for memory were made, and which of them is refused.
    requests: u64,
    refused: u64,
}

/// A line for each exchange in a capture, and for each message that is in none, of which at most `limit` wait on a connection. Where a request for
/// memory is refused, the call says so that made it; or it was for a smaller block in place of a greater one, which stays, and nothing else changes.
pub fn said(asked: Asked, limit: usize, packets: &[Packet]) -> String {
    let watched = |refused| {
        let room = WatchRoom { messages: limit, text: 1 << 20 };
        let mut watcher = Watcher { room, watches: Vec::new(), time: None, said: String::new(), requests: 0, refused };
        let answer = watcher.watch(asked, packets);
        (answer.map(|()| watcher.said), watcher.requests)
    };
    let (said, requests) = watched(u64::MAX);
    let said = said.unwrap_or_else(|_| panic!("no memory"));
    let (mut tries, mut kept) = (0, 0);
    for number in (1..=requests).step_by(requests as usize / 50 + 1) {
        tries += 1;
        if let Ok(other) = watched(number).0 {
            assert_eq!(other, said, "request {number} of {requests} was refused");
            kept += 1;
        }
    }
    assert!(kept * 4 <= tries, "{kept} of {tries} requests that were refused made no difference");
    said
}

impl Watcher {
    /// Watches all connections of a capture to their ends.
    fn watch(&mut self, asked: Asked, packets: &[Packet]) -> Result<(), AllocError> {
        let ports = [asked.port];
        let mut connections = self.ask(|_| Connections::new(asked.limits, &ports).map_err(|_| AllocError))?;
        for packet in packets {
            self.time = packet.time;
            if let Ok(segment) = packet.segment() {
                self.take(&mut connections, &segment)?;
            }
        }
        loop {
            match connections.finish() {
                Departure::Delivery(delivery) => self.watch_delivery(&mut connections, delivery, &[])?,
                Departure::Left(totals) => self.leave(totals.number)?,
                Departure::Empty => return Ok(()),
            }
        }
    }

    /// What a call answers, of whose requests for memory one may be refused.
    fn ask<T>(&mut self, call: impl FnOnce(&mut Vec<Watch>) -> Result<T, AllocError>) -> Result<T, AllocError> {
        let left = self.refused - self.requests.min(self.refused);
        let (answer, made) = refusing(left, left, || call(&mut self.watches));
        self.requests += made;
        assert!(answer.is_ok() || (1..=made).contains(&left));
        answer
    }

    /// Watches what a segment hands on.
    fn take(&mut self, connections: &mut Connections, segment: &Segment<'_>) -> Result<(), AllocError> {
        let Admission::Taken { number, .. } = self.ask(|_| connections.take(&segment.head))? else { return Ok(()) };
        while (self.watches.len() as u64) < number {
            self.watches.reserve(1);
            let made = self.ask(|_| Watch::new())?;
            self.watches.push(made);
        }
        let time = self.time;
        while let Some(delivery) = self.ask(|_| connections.pull(segment, time))? {
            self.watch_delivery(connections, delivery, segment.payload)?;
        }
        Ok(())
    }

    /// Watches the next delivery of one direction.
    fn watch_delivery(&mut self, connections: &mut Connections, delivery: Delivery, payload: &[u8]) -> Result<(), AllocError> {
        let (number, responses, room) = (delivery.number, delivery.way == Way::Responses, self.room);
        let at = number as usize - 1;
        match delivery.step {
            StreamStep::Began { syn } => self.watches[at].begin(responses, syn),
            StreamStep::Payload { from, count } => self.hear(delivery, self.time, &payload[from..from + count], from == 0)?,
            StreamStep::Held { time, begins } => {
                self.hear(delivery, time, connections.held(delivery.way), begins)?;
                connections.pass_held(delivery.way);
            }
            StreamStep::Gap { length, cause, time } => {
                let side = if responses { "responses" } else { "requests" };
                let what = if cause == GapCause::Lost { "gap" } else { "cut" };
                self.said += &format!("{number} {side} {what} {length} at {}\n", delivery.at);
                let paired = self.ask(|watches| watches[at].gap(responses, length, time, room))?;
                self.say(number, paired);
            }
            StreamStep::Ended | StreamStep::Reset => {
                let paired = self.ask(|watches| watches[at].end(responses, room))?;
                self.say(number, paired);
            }
            StreamStep::Kept | StreamStep::Done => {}
        }
        Ok(())
    }

    /// Watches bytes of one direction, which came at this time.
    fn hear(&mut self, delivery: Delivery, time: Option<u64>, bytes: &[u8], begins: bool) -> Result<(), AllocError> {
        let (at, room, mut rest) = (delivery.number as usize - 1, self.room, bytes);
        loop {
            let is_first = begins && rest.len() == bytes.len();
            let step = self.ask(|watches| watches[at].take(delivery.way == Way::Responses, rest, time, is_first, room))?;
            self.say(delivery.number, step.reported);
            if step.is_done {
                return Ok(());
            }
            rest = &rest[step.used..];
        }
    }

    /// Says what is left of a connection that is over.
    fn leave(&mut self, number: u64) -> Result<(), AllocError> {
        let (at, room) = (number as usize - 1, self.room);
        for responses in [false, true] {
            let paired = self.ask(|watches| watches[at].end(responses, room))?;
            self.say(number, paired);
        }
        while let Some(paired) = self.watches[at].finish() {
            self.say(number, Some(paired));
        }
        Ok(())
    }

    /// Adds a line of what is reported of the connection with this number.
    fn say(&mut self, number: u64, reported: Option<Paired<Kept>>) {
        self.said += &match reported {
            None => return,
            Some(Paired::Exchange { request, response }) => format!("{number}:{} -> {}\n", said_of(&request), said_of(&response)),
            Some(Paired::Unanswered { request }) => format!("{number} unanswered {}\n", said_of(&request)),
            Some(Paired::Unasked { response }) => format!("{number} unasked {}\n", said_of(&response)),
            Some(Paired::Event { event }) => format!("{number} event {}\n", said_of(&event)),
        };
    }
}

/// A message's stream id, opcode, length, place, times, the number of what is kept of it, what that is about, and what it says.
fn said_of(message: &SeenMessage<Kept>) -> String {
    let (frame, front) = (message.frame, message.kept.front());
    let header = frame.header;
    let subject = match subject_of(&header, front).map(|field| field.value) {
        None => String::new(),
        Some(Prim::Text(text)) => format!(" text {text:?}"),
        Some(Prim::Bytes(Some(id))) => format!(" id {}", fold(0, id)),
        Some(Prim::Int(number)) => format!(" int {number}"),
        Some(_) => " other".to_string(),
    };
    format!(
        "{} {:?} {} at {}{} from {} to {} kept {}{subject}{}",
        header.stream,
        header.opcode,
        header.length,
        frame.at,
        match frame.extent {
            Extent::Whole => "",
            Extent::Holed => " holed",
            Extent::Short => " short",
        },
        frame.begun.unwrap_or(0),
        frame.ended.unwrap_or(0),
        fold(0, front),
        words(&message.kept.facts())
    )
}
