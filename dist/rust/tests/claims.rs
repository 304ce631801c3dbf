//! What a peer's bytes claim, and what is asked for under them: a decoder asks for its four parts when it is made and for nothing after, whatever
//! lengths and counts come, in whatever pieces, whether memory is ample or none is left after these four; what builds of events asks in
//! proportion to the bytes that came; what writes asks for nothing, or for the bytes that it writes; and whatever is dropped gives all back. Each test has a
//! stack of 256 KiB, so that no length decides how deep a call goes.

use crate::common::streams;
use crate::digits::bytes_of;
use crate::memory;
use cqlp::capture::{CaptureLimits, CaptureReader, CaptureStep, Control, Stream, StreamSegment, StreamStep};
use cqlp::cells::{CellBuilder, CellLimits};
use cqlp::columns::{BatchLimits, Columns, PageColumns};
use cqlp::frame::{BuildLimits, Composer, Frame, FrameBuilder, append, encode};
use cqlp::session::{Client, ClientOf, RequestKind, Server, ServerOf};
use cqlp::text::{render_events, render_rows};
use cqlp::watch::{Watch, WatchRoom};
use cqlp::{Decoder, Event, Fed, Header, IoFault, Kind, Limits, Opcode, Sink, SinkFault, SkippingDecoder, Source, Step, Target, run};

/// What a thread asked for: how often, how many bytes in all, and how many are held.
#[derive(Clone, Copy, Debug, PartialEq, Eq)]
struct Asked {
    requests: u64,
    bytes: u64,
    held: i64,
}

const NOTHING: Asked = Asked { requests: 0, bytes: 0, held: 0 };

impl From<memory::Asked> for Asked {
    fn from(asked: memory::Asked) -> Asked {
        Asked { requests: asked.requests, bytes: asked.bytes, held: asked.held }
    }
}

/// What a call asks for, of which so many requests are granted, and what it leaves held.
fn asked(granted: u64, call: impl FnOnce()) -> Asked {
    memory::refusing(granted.saturating_add(1), u64::MAX, call).1.into()
}

/// What was asked for until now.
fn asked_so_far() -> Asked {
    memory::asked().into()
}

/// The same with ample memory.
fn asked_amply(call: impl FnOnce()) -> Asked {
    asked(u64::MAX, call)
}

/// Does this on a small stack.
fn on_small_stack(test: impl FnOnce() + Send) {
    std::thread::scope(|scope| {
        let done = std::thread::Builder::new().stack_size(256 << 10).spawn_scoped(scope, test).unwrap();
        done.join().unwrap();
    });
}

const SMALL: Limits = Limits { text: 200, cell: 200, entries: 8, depth: 3, types: true, parts: false };

/// Within these all claims are waited for.
const GREATEST: Limits = Limits { text: 1 << 24, cell: 1 << 24, entries: 1 << 16, depth: 64, types: true, parts: false };

/// How many bytes a decoder asks for: those of its longest content, 8 for each type option, and 8 and 32 for each level.
fn room(limits: &Limits) -> u64 {
    u64::from(limits.text.max(limits.cell)) + 8 * u64::from(limits.entries) + 40 * u64::from(limits.depth)
}

/// Contents that lie whole in one piece, lengths and counts far past what comes, and texts that are none.
const CLAIMS: [&str; 24] = [
    "0400000007 0000006b 00000064 100x61 0001 00",
    "0400000007 02000000 00100001 53454c454354",
    "0400000007 02000000 7fffffff 53454c454354",
    "0400000007 02000000 0000000a 53454c454354",
    "0400000007 00000009 00000002 c328 0001 00",
    "0400000009 10000000 0ffffffc 53454c454354",
    "0400000001 02000000 ffff 0001 61",
    "0400000007 02000000 00000001 71 0001 01 ffff 7fffffff ff",
    "0400000007 00000074 00000001 71 0001 01 0001 00000064 100x61 00",
    "040000000d 02000000 00 ffff 00 7fffffff 61",
    "0400000007 0000000e 00000001 71 0001 01 0001 7fffffff",
    "8400000003 02000000 ffff 61",
    "8400000003 00000004 0002 c328",
    "8400000003 00000004 ffff 61",
    "8400000006 02000000 ffff 0001 61 ffff 0001 62",
    "8400000008 02000000 00000002 00000001 7fffffff 00016b 000174 0001630009",
    "8400000008 02000000 00000002 00000001 00000001 00016b 000174 000163 0009 7fffffff 2xffffffff",
    "8400000008 02000000 00000002 00000001 00000001 00016b 000174 000163 0003 00000001 7fffffff 20x61",
    "8400000008 00000083 00000002 00000001 00000001 00016b 000174 000163 0003 00000001 00000064 100x61",
    "8400000008 00000080 00000002 00000001 00000001 00016b 000174 000163 000d 00000001 00000002 c328",
    "8400000008 00000080 00000002 00000001 00000001 00016b 000174 000163 0003 00000001 7fffffff 20x61",
    "8400000008 02000000 00000002 00000001 00000001 00016b 000174 000163 0020 0009 00000001 00100000 7fffffff 00000004 00000007",
    "8400000008 02000000 00000002 00000001 00000001 00016b 000174 000163 0031 ffff 9x0009",
    "8400000008 02000000 00000004 0001 aa 00000001 7fffffff 7fffffff 0000 0000",
];

/// The claims, those of pieces/lines.txt, of every notation, part, type and kind of value that can claim, and the worked streams.
fn all_streams() -> Vec<Vec<u8>> {
    let lines = include_str!("pieces/lines.txt").lines().filter(|line| line.starts_with("claimed_"));
    let mut claims: Vec<_> = lines.filter_map(|line| Some(bytes_of(line.split_once('|')?.1))).collect();
    claims.dedup();
    assert_eq!(claims.len(), 54);
    let own = CLAIMS.iter().map(|words| bytes_of(words));
    own.chain(claims).chain(streams().into_iter().map(|stream| stream.bytes)).collect()
}

/// Gives pieces of this many bytes.
struct Pieces<'a> {
    rest: &'a [u8],
    size: usize,
}

impl Source for Pieces<'_> {
    fn read(&mut self, buffer: &mut [u8]) -> Result<usize, IoFault> {
        let count = self.size.min(self.rest.len()).min(buffer.len());
        let (piece, rest) = self.rest.split_at(count);
        buffer[..count].copy_from_slice(piece);
        self.rest = rest;
        Ok(count)
    }
}

/// Takes all, and keeps nothing.
struct Nowhere;

impl Target for Nowhere {
    fn write(&mut self, bytes: &[u8]) -> Result<usize, IoFault> {
        Ok(bytes.len())
    }
}

impl Sink for Nowhere {
    fn take(&mut self, _: u64, _: &Event<'_>) -> Result<(), SinkFault> {
        Ok(())
    }
}

/// A sink that is a function.
struct Each<F>(F);

impl<F: FnMut(&Event<'_>) -> Result<(), SinkFault>> Sink for Each<F> {
    fn take(&mut self, _: u64, event: &Event<'_>) -> Result<(), SinkFault> {
        self.0(event)
    }
}

/// A way of reading a stream.
type Read = fn(&Limits, &[u8], usize);

/// Event by event, and once more after it has begun anew.
fn pulled(limits: &Limits, stream: &[u8], size: usize) {
    let mut decoder = Decoder::new(*limits).unwrap();
    for _ in 0..2 {
        for piece in stream.chunks(size) {
            let mut used = 0;
            while let Step::Event { used: taken, .. } = decoder.next(&piece[used..]) {
                used += taken;
            }
        }
        decoder.restart();
    }
}

fn fed(limits: &Limits, stream: &[u8], size: usize) {
    let mut decoder = Decoder::new(*limits).unwrap();
    for piece in stream.chunks(size) {
        decoder.feed(piece, &mut Nowhere);
    }
}

fn lenient(limits: &Limits, stream: &[u8], size: usize) {
    let mut decoder = Decoder::lenient(*limits).unwrap();
    run(&mut decoder, &mut Pieces { rest: stream, size }, &mut Nowhere, u64::MAX);
}

fn rendered(limits: &Limits, stream: &[u8], size: usize) {
    let mut decoder = Decoder::new(*limits).unwrap();
    render_events(&mut decoder, &mut Pieces { rest: stream, size }, Nowhere, u64::MAX);
    decoder.restart();
    render_rows(&mut decoder, &mut Pieces { rest: stream, size }, Nowhere, u64::MAX);
}

fn skipped(limits: &Limits, stream: &[u8], size: usize) {
    let mut decoder = SkippingDecoder::new(*limits).unwrap();
    for piece in stream.chunks(size) {
        let mut rest = piece;
        while let (Fed::Refused { used, .. }, _) = decoder.feed(rest, Nowhere) {
            rest = &rest[used..];
            if decoder.skip().is_err() {
                return;
            }
        }
    }
}

/// Four requests for just the room that the limits name, and all of it back; where no other is granted, no other is made.
#[test]
fn decoders() {
    on_small_stack(|| {
        for stream in all_streams() {
            for limits in [SMALL, Limits { parts: true, ..SMALL }, Limits { types: false, ..SMALL }, Limits::DEFAULT, GREATEST] {
                let wanted = Asked { requests: 4, bytes: room(&limits), held: 0 };
                for size in [1, 7, 1 << 20] {
                    for read in [pulled, fed, lenient, rendered, skipped] as [Read; 5] {
                        assert_eq!(asked_amply(|| read(&limits, &stream, size)), wanted, "{stream:x?}");
                        assert_eq!(asked(4, || read(&limits, &stream, size)), wanted, "{stream:x?}");
                    }
                }
            }
        }
    });
}

/// The front of a page with a table of one int, and a page that tells no columns.
fn metadata() -> Vec<u8> {
    bytes_of("8400000008 0000001b 00000002 00000001 00000001 00016b 000174 000163 0009 00000000")
}

fn page() -> Vec<u8> {
    bytes_of("8400000008 00000018 00000002 00000004 00000001 00000001 00000004 00000007")
}

/// A table that is given is dropped with the decoder, before the page that it types, under that page and after it.
#[test]
fn given_tables() {
    for used in 0..=page().len() {
        let made = asked_amply(|| {
            let (metadata, page) = (metadata(), page());
            let mut decoder = Decoder::new(SMALL).unwrap();
            run(&mut decoder, &mut Pieces { rest: &metadata, size: 100 }, &mut Nowhere, u64::MAX);
            let table = decoder.table().clone_table().unwrap();
            assert!(decoder.give(table).is_ok());
            run(&mut decoder, &mut Pieces { rest: &page[..used], size: 100 }, &mut Nowhere, u64::MAX);
        });
        assert_eq!(made.held, 0, "{used}");
    }
}

const BUILD: BuildLimits = BuildLimits { fields: 1_000, depth: 64, bytes: 1 << 20 };

/// What may be asked for over this many bytes of a stream: a few hundred for each, of what its events are kept in.
fn in_proportion(stream: &[u8]) -> u64 {
    4_096 + 400 * stream.len() as u64
}

/// Hands the events of a stream to a function until it has no more use for them.
fn told(stream: &[u8], take: impl FnMut(&Event<'_>) -> Result<(), SinkFault>) {
    let mut decoder = Decoder::new(SMALL).unwrap();
    run(&mut decoder, &mut Pieces { rest: stream, size: 1 << 20 }, &mut Each(take), u64::MAX);
}

fn built(stream: &[u8]) -> Vec<Frame> {
    let (mut builder, mut frames) = (FrameBuilder::new(BUILD), Vec::new());
    told(stream, |event| {
        frames.extend(builder.take(event).map_err(|_| SinkFault)?.map(|built| built.frame));
        Ok(())
    });
    frames
}

fn built_in_turn(stream: &[u8]) {
    let mut builder = FrameBuilder::new(BUILD);
    told(stream, |event| match builder.take(event) {
        Ok(_) => Ok(()),
        Err(_) => Err(SinkFault),
    });
}

fn composed(stream: &[u8]) {
    let mut composer = Composer::new(BUILD);
    told(stream, |event| {
        composer.take(event).map_err(|_| SinkFault)?;
        if let Event::End { .. } = event {
            let whole = std::mem::replace(&mut composer, Composer::new(BUILD));
            drop(whole.write());
        }
        Ok(())
    });
}

fn cells(stream: &[u8]) {
    let mut builder = CellBuilder::new(CellLimits { events: 1_000, bytes: 1 << 20 });
    told(stream, |event| {
        let _ = builder.take(event);
        Ok(())
    });
}

/// Counts of 2^31 ask for nothing, and all that is asked for comes back, whether the frame comes to its end or not, and whichever request past
/// those of the decoder is the first that is refused.
#[test]
fn builders() {
    on_small_stack(|| {
        for stream in all_streams() {
            for build in [built_in_turn, composed, cells] as [fn(&[u8]); 3] {
                let made = asked_amply(|| build(&stream));
                assert!(made.bytes <= room(&SMALL) + in_proportion(&stream), "{made:?} {stream:x?}");
                assert_eq!(made.held, 0, "{stream:x?}");
                for granted in 4..made.requests {
                    assert_eq!(asked(granted, || build(&stream)).held, 0, "{granted} {stream:x?}");
                }
            }
        }
    });
}

/// To write a frame takes no memory; to append it, no more than the frame needs and a buffer grows by.
#[test]
fn written_frames() {
    for stream in all_streams() {
        for frame in built(&stream) {
            assert_eq!(asked_amply(|| assert!(encode(&frame, &mut Nowhere).is_ok())), NOTHING, "{stream:x?}");
            let (mut bytes, mut len) = (Vec::new(), 0);
            let made = asked_amply(|| len = append(&frame, &mut bytes).unwrap_or(0) as u64);
            assert!(made.held as u64 <= 1_024 + 2 * len && made.bytes <= 2_048 + 4 * len, "{made:?} {stream:x?}");
            assert_eq!(made.held, bytes.capacity() as i64);
        }
    }
}

/// A value of the caller's, which owns memory.
fn carried() -> Box<[u8]> {
    vec![7; 100].into()
}

fn header(response: bool, stream: i16, opcode: Opcode) -> Header {
    Header { response, flags: 0, stream, opcode, length: 1 << 28 }
}

/// A client of which three requests are open, one of them given up, and one was answered.
fn client() -> ClientOf<Box<[u8]>> {
    let mut client = ClientOf::new(100).unwrap();
    let tickets = [(); 4].map(|()| client.begin(RequestKind::Options, carried()).ok().unwrap());
    assert!(client.cancel(tickets[0]));
    drop(client.reply(&header(true, 1, Opcode::Supported)));
    drop(client.reply(&header(true, 90, Opcode::Supported)));
    client
}

fn server() -> ServerOf<Box<[u8]>> {
    let mut server = ServerOf::new(100).unwrap();
    for stream in 0..4 {
        drop(server.accept(&header(false, stream, Opcode::Options), carried()));
        drop(server.accept(&header(false, stream, Opcode::Options), carried()));
    }
    drop(server.answer(1, Opcode::Supported));
    server
}

/// Cores give back what they took and what they carry, at once, as values, and with some values left.
#[test]
fn cores() {
    let ways: [fn(); 8] = [
        || drop(client()),
        || drop(client().into_values()),
        || drop(client().into_values().nth(1)),
        || drop(server()),
        || drop(server().into_values()),
        || drop(server().into_values().nth(1)),
        || drop(Client::new(32_768)),
        || drop(Server::new(32_768)),
    ];
    for (at, way) in ways.iter().enumerate() {
        let made = asked_amply(way);
        assert!(made.requests > 0 && made.held == 0, "{at} {made:?}");
    }
}

/// An observer takes memory for the first bytes of a body that passes and for messages that wait alone, at most 2 KiB for each, whatever is announced in
/// either direction, and with gaps of any length.
#[test]
fn observers() {
    for stream in all_streams() {
        let whole = asked_amply(|| {
            let mut watch = Watch::new().unwrap();
            for responses in [false, true, false] {
                watch.begin(responses, true);
                let mut rest = &stream[..];
                let mut reported = None;
                for time in 0..1_000 {
                    let used = if time % 2 == 0 {
                        watch.take_into(responses, rest, Some(time), time == 0, WatchRoom::ONE, &mut reported).unwrap().used
                    } else {
                        watch.take(responses, rest, Some(time), false, WatchRoom::ONE).unwrap().used
                    };
                    let most = 2_048 * (watch.waiting() as i64 + 4);
                    assert!(asked_so_far().held <= most, "{stream:x?} {:?}", asked_so_far());
                    rest = &rest[used..];
                }
                let _ = watch.gap(responses, u64::MAX >> 1, None, WatchRoom::ONE).unwrap();
                let _ = watch.end(responses, WatchRoom::ONE).unwrap();
            }
        });
        assert_eq!(whole.held, 0, "{stream:x?}");
    }
}

/// A stream takes nothing for segments at whatever distance that have no room, and gives back what it took.
#[test]
fn streams_of_captures() {
    for room in [0, 130, 4_096] {
        let made = asked_amply(|| {
            let mut stream = Stream::new();
            for sequence in [9_u32, 10, 15, 10 + room as u32, 1 << 30, 1 << 31, (1 << 31) + 9, 3 << 30, u32::MAX] {
                let control = Control { sequence, syn: sequence == 9, fin: false, rst: false, missing: 2 };
                let segment = StreamSegment { control, payload: b"abc", time: None };
                for _ in 0..4 {
                    if let StreamStep::Held { .. } = stream.take(&segment, room).unwrap() {
                        stream.pass_held();
                    }
                    assert!(stream.size() <= room);
                    stream.acknowledge(sequence);
                }
            }
            stream.close();
            stream.clear();
        });
        assert_eq!((made.held, made.bytes == 0), (0, room < 4_096), "{room}");
        assert!(made.bytes <= 4_096, "{room}");
    }
}

/// A reader of captures takes memory when it is made alone, whatever lengths a packet has.
#[test]
fn captures() {
    let heads = ["d4c3b2a1 02000400 00000000 00000000 00000400 65000000", "0a0d0d0a 1c000000 4d3c2b1a 01000000 ffffffffffffffff 1c000000"];
    let packets = ["00000000 00000000 ffffff7f ffffff7f 20x61", "06000000 fcffff7f 00000000 00000000 00000000 fcffff7f fcffff7f 20x61"];
    for (head, packet) in heads.iter().zip(packets) {
        let file = [bytes_of(head), bytes_of(packet)].concat();
        let mut made = NOTHING;
        let whole = asked_amply(|| {
            let mut reader = CaptureReader::new(CaptureLimits::DEFAULT).unwrap();
            made = asked_so_far();
            for piece in file.chunks(5) {
                let mut used = 0;
                while let CaptureStep::Event { used: taken, .. } = reader.next(&piece[used..]) {
                    used += taken;
                }
            }
        });
        assert_eq!(whole, Asked { held: 0, ..made }, "{head}");
    }
}

/// Columns take memory when they are made alone, and give it back.
#[test]
fn columns() {
    let limits = BatchLimits { columns: 2, rows: 9, bytes: 200, content: 100 };
    for stream in all_streams() {
        let mut made = NOTHING;
        let whole = asked_amply(|| {
            let columns = Columns::new(limits, &[Kind::Int, Kind::Varchar]).unwrap();
            let mut decoder = Decoder::new(SMALL).unwrap();
            made = asked_so_far();
            let mut reader = PageColumns::new(columns, Nowhere);
            for piece in stream.chunks(50) {
                reader.read(&mut decoder, piece);
            }
        });
        assert_eq!(whole, Asked { held: 0, ..made }, "{stream:x?}");
    }
}
