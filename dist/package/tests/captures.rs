//! Captures whose bytes were changed at random end in no panic, and say the same whole and in pieces of any size: of packets, of the segments
//! in them, and of the bytes that streams hand on, by a table of the bytes that came first. And what the example `streams` writes of captures
//! of a driver is what its sockets saw. CQLP_STREAMS is how many changed captures there are, 3,000 where it is not set.
#![forbid(unsafe_code)]

#[allow(dead_code)]
#[path = "../examples/streams.rs"]
mod example;

use crate::common::{Numbers, count};
use cqlp::capture::{
    CaptureEnd, CaptureEvent, CaptureLimits, CaptureReader, CaptureStep, Control, Distance, Endpoint, GapCause, LinkType, PacketHead,
    Segment, Stream, StreamSegment, StreamStep, distance_to, read_segment,
};
use example::{Told, follow};
use std::collections::HashMap;
use std::hash::{BuildHasherDefault, Hasher};
use std::io::Write;

fn capture(name: &str) -> Vec<u8> {
    std::fs::read(format!("{}/tests/captures/{name}", env!("CARGO_MANIFEST_DIR"))).unwrap()
}

/// What is told of each direction in a capture: its ends, its bytes, and how many are missing before which of them.
#[derive(Default)]
struct Account {
    source: u16,
    destination: u16,
    bytes: Vec<u8>,
    gaps: Vec<(usize, usize)>,
    is_over: bool,
}

fn accounts(capture: &[u8]) -> Vec<Account> {
    let mut accounts: Vec<Account> = Vec::new();
    follow(capture, |number, told| {
        let number = usize::try_from(number).unwrap();
        if let Told::Began((source, destination)) = told {
            assert_eq!(number, accounts.len());
            accounts.push(Account { source: source.port, destination: destination.port, ..Account::default() });
        }
        let account = &mut accounts[number];
        assert!(!account.is_over);
        match told {
            Told::Began(_) => {}
            Told::Bytes(bytes) => account.bytes.extend(bytes),
            Told::Gap(length) => account.gaps.push((account.bytes.len(), length as usize)),
            Told::Over => account.is_over = true,
        }
        Ok(())
    })
    .unwrap();
    assert!(accounts.iter().all(|account| account.is_over));
    accounts
}

/// The connections of a capture, in order, in which nothing is missing: what went to the node and what came from it.
fn conversations(capture: &[u8]) -> Vec<[Vec<u8>; 2]> {
    let accounts = accounts(capture);
    assert!(accounts.iter().all(|account| account.gaps.is_empty()));
    let to_node: Vec<_> = accounts.iter().filter(|account| account.destination < account.source).collect();
    let back = |account: &Account| accounts.iter().find(|other| other.destination == account.source).unwrap().bytes.clone();
    to_node.iter().map(|account| [account.bytes.clone(), back(account)]).collect()
}

#[test]
fn the_bytes_of_a_driver() {
    for (name, base) in [
        ("driver.pcap", "driver"),
        ("driver.pcapng", "driver"),
        ("driver-big-endian.pcap", "driver"),
        ("driver-ns.pcap", "driver"),
        ("driver-vlan.pcap", "driver"),
        ("driver-swapped.pcap", "driver"),
        ("driver-twice.pcap", "driver"),
        ("driver-overlap.pcap", "driver"),
        ("driver-sll2.pcap", "driver-sll2"),
    ] {
        let found = conversations(&capture(name));
        let seen: Vec<_> = (0..2).map(|i| ["requests", "responses"].map(|way| capture(&format!("{base}.{i}.{way}.bin")))).collect();
        assert_eq!(found, seen, "{name}");
    }
}

/// Of a capture in which a segment was lost all that is handed on is what the sockets saw, but for the gap.
#[test]
fn a_lost_segment() {
    let accounts = accounts(&capture("driver-lost.pcap"));
    let seen = ["driver.0.requests.bin", "driver.0.responses.bin", "driver.1.requests.bin", "driver.1.responses.bin"].map(capture);
    let mut gaps = 0;
    for account in accounts {
        let filled = seen.iter().any(|seen| {
            let mut rest = &seen[..];
            let mut from = 0;
            for (at, length) in account.gaps.iter().chain([&(account.bytes.len(), 0)]) {
                let part = &account.bytes[from..*at];
                if !rest.starts_with(part) || rest.len() < part.len() + length {
                    return false;
                }
                rest = &rest[part.len() + length..];
                from = *at;
            }
            rest.is_empty()
        });
        assert!(filled, "{} to {}", account.source, account.destination);
        gaps += account.gaps.len();
    }
    assert_eq!(gaps, 1);
}

// ---- changed captures

/// The hash of a place, which takes a tenth of the time of std's.
#[derive(Default)]
struct OfPlace(u64);

impl Hasher for OfPlace {
    fn finish(&self) -> u64 {
        self.0
    }

    fn write(&mut self, _: &[u8]) {
        unreachable!()
    }

    fn write_u64(&mut self, place: u64) {
        self.0 = place.wrapping_mul(0x9e37_79b9_7f4a_7c15);
    }
}

/// A direction by its bytes alone: at each place the byte of the first segment that carried it, or none where its packet was cut, and its time.
#[derive(Default)]
struct Reference {
    /// The sequence number of the first byte, once there is one.
    first: Option<u32>,
    /// How many bytes and places are past.
    position: u64,
    came: HashMap<u64, (Option<u8>, Option<u64>), BuildHasherDefault<OfPlace>>,
}

impl Reference {
    fn note(&mut self, StreamSegment { control, payload, time }: &StreamSegment<'_>) {
        let number = control.sequence.wrapping_add(u32::from(control.syn));
        let length = payload.len() + control.missing as usize;
        if self.first.is_none() && (control.syn || control.fin || length > 0) {
            self.first = Some(number);
        }
        let Some(first) = self.first else { return };
        let (ahead, before) = match distance_to(number, first.wrapping_add(self.position as u32)) {
            Distance::Ahead(n) => (u64::from(n), 0),
            Distance::Behind(n) => (0, n as usize),
        };
        for i in before..length {
            self.came.entry(self.position + ahead + (i - before) as u64).or_insert((payload.get(i).copied(), *time));
        }
    }

    fn hand_on(&mut self, bytes: &[u8], time: Option<u64>) {
        for byte in bytes {
            assert_eq!(self.came.remove(&self.position), Some((Some(*byte), time)), "at {}", self.position);
            self.position += 1;
        }
    }

    fn pass(&mut self, length: u64, cause: GapCause, time: Option<u64>) {
        assert!(length > 0);
        let end = self.position + length;
        match cause {
            GapCause::Lost => {
                let came = self.came.keys().any(|place| (self.position..end).contains(place));
                assert!(!came, "a gap where a byte came");
            }
            GapCause::Snapped => {
                for place in self.position..end {
                    assert_eq!(self.came.remove(&place), Some((None, time)), "at {place}");
                }
            }
        }
        self.position = end;
    }
}

struct Direction {
    stream: Stream,
    room: usize,
    reference: Reference,
}

impl Direction {
    fn new(room: usize) -> Direction {
        Direction { stream: Stream::new(), room, reference: Reference::default() }
    }

    fn take(&mut self, segment: &StreamSegment<'_>, said: &mut Vec<u8>) {
        self.reference.note(segment);
        let room = self.room;
        self.pull(segment, said, |stream| stream.take(segment, room).unwrap());
        assert!(self.stream.size() <= room);
    }

    fn acknowledge(&mut self, number: u32, said: &mut Vec<u8>) {
        let control = Control { sequence: 0, syn: false, fin: false, rst: false, missing: 0 };
        self.pull(&StreamSegment { control, payload: &[], time: None }, said, |stream| stream.acknowledge(number));
    }

    fn pull(&mut self, segment: &StreamSegment<'_>, said: &mut Vec<u8>, mut next: impl FnMut(&mut Stream) -> StreamStep) {
        loop {
            let step = next(&mut self.stream);
            writeln!(said, "{step:?}").unwrap();
            match step {
                StreamStep::Payload { from, count } => self.reference.hand_on(&segment.payload[from..from + count], segment.time),
                StreamStep::Held { time, .. } => {
                    assert!(!self.stream.held().is_empty());
                    self.reference.hand_on(self.stream.held(), time);
                    self.stream.pass_held();
                }
                StreamStep::Gap { length, cause, time } => self.reference.pass(length, cause, time),
                StreamStep::Done => return,
                StreamStep::Began { .. } | StreamStep::Kept | StreamStep::Ended | StreamStep::Reset => {}
            }
        }
    }
}

/// What is said of a capture: its events, its segments, what streams tell, and how it ends.
struct Report {
    room: usize,
    packet: Option<PacketHead>,
    directions: HashMap<(Endpoint, Endpoint), Direction>,
    said: Vec<u8>,
}

impl Report {
    /// Takes a piece, and answers whether more may come.
    fn take(&mut self, reader: &mut CaptureReader, piece: &[u8]) -> bool {
        let mut used = 0;
        loop {
            match reader.next(&piece[used..]) {
                CaptureStep::Event { at, used: taken, event } => {
                    used += taken;
                    self.event(at, &event);
                }
                CaptureStep::More { used: taken } => {
                    assert_eq!(used + taken, piece.len());
                    return true;
                }
                CaptureStep::Refused(refusal) => {
                    assert_eq!(reader.finish(), CaptureEnd::Refused(refusal));
                    return false;
                }
            }
        }
    }

    fn event(&mut self, at: u64, event: &CaptureEvent<'_>) {
        match event {
            CaptureEvent::Section(_) | CaptureEvent::Interface(_) | CaptureEvent::Skipped(_) => {}
            CaptureEvent::Packet(head) => self.packet = Some(*head),
            CaptureEvent::Data(packet) => {
                let head = self.packet.take().unwrap();
                assert_eq!(packet.len(), head.captured as usize);
                self.said.extend(*packet);
                return self.packet(&head, packet);
            }
        }
        writeln!(self.said, "{at} {event:?}").unwrap();
    }

    fn packet(&mut self, head: &PacketHead, packet: &[u8]) {
        match LinkType::from_number(head.link).and_then(|link| read_segment(link, packet, head.original)) {
            Ok(segment) => {
                assert_eq!(&packet[segment.offset..segment.offset + segment.payload.len()], segment.payload);
                self.segment(&segment, head.time);
            }
            Err(why) => writeln!(self.said, "{why:?}").unwrap(),
        }
    }

    fn segment(&mut self, segment: &Segment<'_>, time: Option<u64>) {
        let head = segment.head;
        if head.flags.ack {
            if let Some(other) = self.directions.get_mut(&(head.destination, head.source)) {
                other.acknowledge(head.acknowledgement, &mut self.said);
            }
        }
        // A changed header may say that four billion bytes are missing, and the table has an entry for each.
        let control = Control {
            sequence: head.sequence,
            syn: head.flags.syn,
            fin: head.flags.fin,
            rst: head.flags.rst,
            missing: segment.missing.min(2_000) as u32,
        };
        let direction = self.directions.entry((head.source, head.destination)).or_insert_with(|| Direction::new(self.room));
        direction.take(&StreamSegment { control, payload: segment.payload, time }, &mut self.said);
    }
}

fn said<'a>(limits: CaptureLimits, room: usize, pieces: impl IntoIterator<Item = &'a [u8]>) -> Vec<u8> {
    let mut reader = CaptureReader::new(limits).unwrap();
    let mut report = Report { room, packet: None, directions: HashMap::new(), said: Vec::new() };
    for piece in pieces {
        if !report.take(&mut reader, piece) {
            break;
        }
    }
    assert_eq!((reader.capacity(), reader.interface_capacity()), (limits.packet as usize, limits.interfaces as usize));
    writeln!(report.said, "{:?}", reader.finish()).unwrap();
    report.said
}

/// The packets of a capture, each with the header of its record, and the file's header.
fn records(capture: &[u8]) -> (Vec<u8>, Vec<Vec<u8>>) {
    let (mut starts, mut reader) = (Vec::new(), CaptureReader::new(CaptureLimits::DEFAULT).unwrap());
    let mut used = 0;
    while let CaptureStep::Event { at, used: taken, event } = reader.next(&capture[used..]) {
        if let CaptureEvent::Packet(_) = event {
            starts.push(at as usize);
        }
        used += taken;
    }
    let ends = starts.iter().skip(1).copied().chain([capture.len()]);
    (capture[..starts[0]].to_vec(), starts.iter().zip(ends).map(|(start, end)| capture[*start..end].to_vec()).collect())
}

/// Some packets of a capture that follow one another, of which some come twice, not at all or in another order, with bytes changed.
fn mutated(numbers: &mut Numbers, (header, records): &(Vec<u8>, Vec<Vec<u8>>)) -> Vec<u8> {
    let first = numbers.below(records.len());
    let mut packets: Vec<&Vec<u8>> = records.iter().skip(first).take(numbers.one_of(&[1, 4, 12])).collect();
    for _ in 0..numbers.one_of(&[0, 0, 1, 3]) {
        let (place, other) = (numbers.below(packets.len()), numbers.below(packets.len()));
        match numbers.below(3) {
            0 => packets.swap(place, other),
            1 => packets.insert(place, packets[other]),
            _ if packets.len() > 1 => drop(packets.remove(place)),
            _ => {}
        }
    }
    let mut capture = header.clone();
    packets.iter().for_each(|packet| capture.extend(*packet));
    for _ in 0..numbers.one_of(&[0, 1, 1, 2, 3, 8]) {
        // The headers of a packet are what tells most: a byte of them more often than any other.
        let (any, near) = (numbers.below(capture.len()), header.len() + numbers.below(90));
        let place = numbers.one_of(&[any, near.min(capture.len() - 1)]);
        let byte = numbers.below(256) as u8;
        capture[place] = numbers.one_of(&[0, 1, 2, 4, 0x7f, 0x80, 0xff, byte, capture[place] ^ 1, capture[place].wrapping_add(3)]);
    }
    if numbers.below(5) == 0 {
        capture.truncate(numbers.below(capture.len() + 1));
    }
    capture
}

/// Pieces of a capture, each of at most this many bytes.
fn pieces<'a>(numbers: &mut Numbers, mut rest: &'a [u8], most: usize) -> Vec<&'a [u8]> {
    let mut pieces = Vec::new();
    while !rest.is_empty() {
        let (piece, after) = rest.split_at(rest.len().min(1 + numbers.below(most)));
        pieces.push(piece);
        rest = after;
    }
    pieces
}

#[test]
fn changed_captures() {
    let names = ["driver", "driver-big-endian", "driver-ns", "driver-vlan", "driver-sll2", "driver-snapped", "driver-middle"];
    let files = names.iter().map(|name| format!("{name}.pcap")).chain(["driver.pcapng".to_string()]);
    let bases: Vec<_> = files.map(|name| records(&capture(&name))).collect();
    let mut numbers = Numbers::new();
    for case in 0..count() {
        let base = &bases[numbers.below(bases.len())];
        let changed = mutated(&mut numbers, base);
        let limits = CaptureLimits { packet: numbers.one_of(&[64, 96, 1_000, 262_144]), interfaces: numbers.one_of(&[1, 2, 256]) };
        let room = numbers.one_of(&[0, 130, 200, 400, 5_000]);
        let whole = said(limits, room, [&changed[..]]);
        let most = numbers.one_of(&[1, 3, 20, 200, 2_000]);
        assert!(said(limits, room, pieces(&mut numbers, &changed, most)) == whole, "case {case}: {changed:02x?}");
    }
}

/// Segments that overlap, disagree, come early or again, and acknowledgements between them, where numbers wrap and where they do not.
#[test]
fn segments_in_any_order() {
    let mut numbers = Numbers::new();
    for _ in 0..count() {
        let room = numbers.one_of(&[0, 130, 200, 400, 3_000]);
        let first = numbers.one_of(&[0, 1_000, 0x7fff_ffe0, u32::MAX - 20]);
        let mut direction = Direction::new(room);
        let mut said = Vec::new();
        for time in 0..numbers.below(12) as u64 {
            let sequence = first.wrapping_add(numbers.below(60) as u32);
            if numbers.below(4) == 0 {
                direction.acknowledge(sequence, &mut said);
                continue;
            }
            let payload: Vec<u8> = (0..numbers.below(20)).map(|_| numbers.below(256) as u8).collect();
            let control = Control {
                sequence,
                syn: numbers.below(20) == 0,
                fin: numbers.below(15) == 0,
                rst: numbers.below(60) == 0,
                missing: numbers.one_of(&[0, 0, 0, 5]),
            };
            direction.take(&StreamSegment { control, payload: &payload, time: Some(time) }, &mut said);
        }
    }
}
