//! The worked server, examples/server: what it answers to requests of this file's, and to bytes that are none, over memory; and that no client
//! stops another, over sockets. Where there is no loopback connection, nothing is tried over one.
#![forbid(unsafe_code)]

#[path = "../examples/server/connection.rs"]
mod connection;
#[path = "../examples/server/listening.rs"]
mod listening;
#[path = "../examples/server/node.rs"]
mod node;
#[path = "../examples/server/page.rs"]
mod page;
#[path = "../examples/server/problem.rs"]
mod problem;
#[path = "../examples/server/sample.rs"]
mod sample;
#[path = "../examples/server/statement.rs"]
mod statement;
#[path = "../examples/server/system.rs"]
mod system;
#[path = "../examples/server/table.rs"]
mod table;

use connection::{Connection, LONGEST_BODY, MOST_FIELDS};
use cqlp::frame::{BatchEntry, BuildLimits, ErrorExtra, Frame, FrameBuilder, Message, OwnedBound, QueryParams, Value, encode, raw_value};
use cqlp::{Decoder, Limits, OfStd, Step};
use listening::{MOST_CONNECTIONS, listen};
use node::Node;
use std::io::{ErrorKind, Read, Write};
use std::net::{Ipv4Addr, Shutdown, SocketAddr, TcpListener, TcpStream};
use std::sync::atomic::{AtomicBool, Ordering};
use std::sync::mpsc::{Receiver, channel};
use std::thread;
use std::time::{Duration, Instant};

/// OPTIONS, STARTUP, `USE ks`, and OPTIONS of version 5, under the stream ids 0 to 3.
const REQUESTS: &[u8] = b"\x04\0\0\0\x05\0\0\0\0\
    \x04\0\0\x01\x01\0\0\0\x16\0\x01\0\x0bCQL_VERSION\0\x053.0.0\
    \x04\0\0\x02\x07\0\0\0\x0d\0\0\0\x06USE ks\0\x01\0\
    \x05\0\0\x03\x05\0\0\0\0";

const REPLIES: &[u8] = b"\x84\0\0\0\x06\0\0\0\x42\
    \0\x03\0\x11PROTOCOL_VERSIONS\0\x01\0\x044/v4\0\x0bCQL_VERSION\0\x01\0\x053.4.4\0\x0bCOMPRESSION\0\0\
    \x84\0\0\x01\x02\0\0\0\0\
    \x84\0\0\x02\x08\0\0\0\x08\0\0\0\x03\0\x02ks\
    \x84\0\0\x03\0\0\0\0\x6a\0\0\0\x0a\0\x64Invalid or unsupported protocol version (5); the lowest supported version is 4 and the \
    greatest is 4";

/// Bytes that come in pieces of a size.
struct Pieces<'a>(&'a [u8], usize);

impl Read for Pieces<'_> {
    fn read(&mut self, room: &mut [u8]) -> std::io::Result<usize> {
        let size = self.1.min(room.len());
        self.0.read(&mut room[..size])
    }
}

/// What a client reads that sends these bytes, and whether it was refused.
fn exchange(node: &Node, requests: &[u8], size: usize) -> (Vec<u8>, bool) {
    let mut replies = Vec::new();
    let served = Connection::new(Pieces(requests, size), &mut replies).unwrap().serve(node);
    (replies, served.is_err())
}

/// The frames that bytes are, all of them.
fn frames(bytes: &[u8]) -> Vec<Frame> {
    let limits = BuildLimits { fields: 1_000_000, depth: 10, bytes: 10_000_000 };
    let (mut decoder, mut builder) = (Decoder::new(Limits::DEFAULT).unwrap(), FrameBuilder::new(limits));
    let (mut rest, mut frames) = (bytes, Vec::new());
    loop {
        match decoder.next(rest) {
            Step::Event { used, event, .. } => {
                rest = &rest[used..];
                frames.extend(builder.take(&event).unwrap().map(|built| built.frame));
            }
            Step::More { .. } => break,
            Step::Refused(refusal) => panic!("{refusal}"),
        }
    }
    assert!(builder.is_between());
    frames
}

fn bytes(stream: i16, message: Message) -> Vec<u8> {
    let mut target = OfStd::new(Vec::new());
    encode(&Frame::plain(stream, message), &mut target).unwrap();
    target.into_inner()
}

fn startup() -> Vec<u8> {
    bytes(0, Message::Startup(vec![("CQL_VERSION".to_string(), "3.0.0".to_string())]))
}

/// What is answered to this request, the second of a connection, after which a third is answered as well.
fn ask(node: &Node, message: Message) -> Frame {
    let sent = [startup(), bytes(7, message), bytes(8, Message::Options)].concat();
    let (replies, is_refused) = exchange(node, &sent, usize::MAX);
    let Ok([ready, reply, options]) = <[Frame; 3]>::try_from(frames(&replies)) else {
        panic!("{replies:?}");
    };
    assert!(!is_refused && ready.message == Message::Ready && matches!(options.message, Message::Supported(_)));
    assert_eq!((reply.stream, options.stream), (7, 8));
    reply
}

/// The parameters of a page of this size from a paging state on, with these flags beside.
fn params(page_size: Option<i32>, state: Option<Vec<u8>>, key: Option<i32>, flags: u8) -> QueryParams {
    let values = key.map(|key| vec![(None, OwnedBound::Bytes(key.to_be_bytes().to_vec()))]);
    let paging = state.map(Some);
    let announced = [(0x01, key.is_some()), (0x04, page_size.is_some()), (0x08, paging.is_some())];
    let flags = announced.iter().filter(|(_, is_there)| *is_there).fold(flags, |flags, (flag, _)| flags | flag);
    QueryParams { consistency: 1, flags, values, page_size, paging, serial: None, timestamp: None }
}

fn query(text: &str, params: QueryParams) -> Message {
    Message::Query { text: text.to_string(), params }
}

/// A statement with spaces after it, up to this many bytes.
fn padded(text: &str, len: usize) -> String {
    text.to_string() + &" ".repeat(len - text.len())
}

fn execute(id: &[u8], params: QueryParams) -> Message {
    Message::Execute { id: id.to_vec(), params }
}

fn plain() -> QueryParams {
    params(None, None, None, 0)
}

/// The code and the text of an ERROR.
fn error(message: &Message) -> Option<(i32, &str)> {
    match message {
        Message::Error { code, message, .. } => Some((*code, message.as_str())),
        _ => None,
    }
}

#[test]
fn requests_by_hand_are_answered_by_bytes_by_hand() {
    let node = Node::new().unwrap();
    for size in [1, 2, 5, 9, 10, 100] {
        assert_eq!(exchange(&node, REQUESTS, size), (REPLIES.to_vec(), true), "in pieces of {size}");
    }
}

/// All pages of a query, each asked for by the paging state of the one before: their cells, and how many pages there are.
fn pages(node: &Node, mut request: impl FnMut(Option<Vec<u8>>) -> Message) -> (Vec<Value>, usize) {
    let (mut cells, mut state) = (Vec::new(), None);
    for count in 1.. {
        let Message::Rows(rows) = ask(node, request(state)).message else {
            panic!("no page");
        };
        assert_eq!(rows.cells.len(), rows.rows as usize * rows.meta.columns as usize);
        assert_eq!(rows.meta.paging.is_some(), rows.meta.flags & 2 > 0);
        cells.extend(rows.cells);
        state = rows.meta.paging.flatten();
        if state.is_none() {
            return (cells, count);
        }
    }
    unreachable!()
}

/// The cells of the rows of `ks.t` with these keys: as values, or as raw bytes.
fn cells(keys: std::ops::Range<i32>, is_raw: bool) -> Vec<Value> {
    let table = sample::table().unwrap();
    let in_row = table.columns.len();
    let rows = table.rows.into_iter().filter(|row| keys.clone().any(|key| row[0] == Value::from(key)));
    let raw = |(place, value): (usize, Value)| match is_raw {
        true => raw_value(&value, Some(&table.columns[place % in_row].tree)).unwrap(),
        false => value,
    };
    rows.flatten().enumerate().map(raw).collect()
}

#[test]
fn pages_have_each_row_once_in_order() {
    let node = Node::new().unwrap();
    for size in [1, 7, 24, 25, 999, 1_000, 2_499, 2_500, i32::MAX] {
        let per_page = usize::try_from(size).unwrap();
        if size > 100 {
            let (got, count) = pages(&node, |state| query("SELECT * FROM ks.t", params(Some(size), state, None, 0)));
            assert!(got == cells(0..100, false) && count == 2_500_usize.div_ceil(per_page), "pages of {size}");
        }
        let (got, count) = pages(&node, |state| query("SELECT * FROM ks.t WHERE k = 3", params(Some(size), state, None, 0)));
        assert!(got == cells(3..4, false) && count == 25_usize.div_ceil(per_page), "pages of {size} of a key");
        for (flags, is_raw) in [(0, false), (2, true)] {
            let id = b"SELECT * FROM ks.t WHERE k = ?";
            let (got, count) = pages(&node, |state| execute(id, params(Some(size), state, Some(99), flags)));
            assert!(got == cells(99..100, is_raw) && count == 25_usize.div_ceil(per_page), "pages of {size} of a bound key");
        }
    }
    for size in [None, Some(0), Some(-1)] {
        let (got, count) = pages(&node, |state| query("SELECT * FROM ks.t", params(size, state, None, 0)));
        assert!(got == cells(0..100, false) && count == 1);
        assert_eq!(pages(&node, |state| query("SELECT * FROM ks.t WHERE k = 100", params(size, state, None, 0))), (vec![], 1));
    }
}

#[test]
fn a_paging_state_that_it_did_not_make_is_refused() {
    let node = Node::new().unwrap();
    let of_row = |row: u64| row.to_be_bytes().to_vec();
    // No bytes, too few, too many; the first row of key 3, and rows of other keys; no row.
    let long = [of_row(80), vec![0]].concat();
    let states = [vec![], vec![0; 4], long, b"whatever".to_vec(), of_row(75), of_row(0), of_row(74), of_row(100), of_row(2_500)];
    for state in states {
        let reply = ask(&node, query("SELECT * FROM ks.t WHERE k = 3", params(Some(10), Some(state.clone()), None, 0)));
        assert_eq!(error(&reply.message), Some((0x000A, "invalid value for the paging state")), "{state:?}");
    }
    let null = QueryParams { flags: 8, paging: Some(None), ..plain() };
    assert!(matches!(ask(&node, query("SELECT * FROM ks.t", null)).message, Message::Rows(rows) if rows.rows == 2_500));
}

#[test]
fn statements_are_answered() {
    let node = Node::new().unwrap();
    for (text, columns, rows) in [
        ("SELECT * FROM ks.t", 4, 2_500),
        ("select t, K from ks.t where k=5;", 0, 0),
        ("  select t,\"k\",t\nfrom \"ks.t\"\twhere k=5 ; ", 3, 25),
        ("SELECT c FROM ks.t WHERE t = 'row 3 of 7'", 1, 1),
        ("SELECT c FROM ks.t WHERE k = -1", 1, 0),
        ("SELECT schema_version FROM system.local WHERE key='local'", 1, 1),
        ("SELECT * FROM system.local WHERE key = 'other'", 15, 0),
        ("SELECT * FROM system.peers", 1, 0),
        ("SELECT * FROM system_schema.keyspaces", 1, 0),
        ("SELECT * FROM system_schema.columns WHERE keyspace_name = 'ks'", 1, 0),
    ] {
        match ask(&node, query(text, plain())).message {
            Message::Rows(page) => assert_eq!((page.meta.columns, page.rows), (columns, rows), "{text}"),
            message => assert_eq!((error(&message), columns), (Some((0x2200, "undefined column name")), 0), "{text}"),
        }
    }
    for (count, expected) in [(64, Ok(64)), (65, Err(0x2200)), (100_000, Err(0x2200))] {
        let text = format!("SELECT k{} FROM ks.t WHERE k = 1", ",k".repeat(count - 1));
        let columns = match ask(&node, query(&text, plain())).message {
            Message::Rows(page) => Ok(page.meta.columns),
            message => Err(error(&message).unwrap().0),
        };
        assert_eq!(columns, expected);
    }
    for text in ["USE ks", "use \"ks\";"] {
        assert_eq!(ask(&node, query(text, plain())).message, Message::SetKeyspace("ks".to_string()));
    }
}

#[test]
fn statements_that_it_does_not_know_are_answered_by_errors() {
    let node = Node::new().unwrap();
    let syntax = "BAD|SELECT|SELECT 1|SELECT * FROM|SELECT * ks.t|SELECT k, FROM ks.t|SELECT * FROM ks.t WHERE|SELECT * FROM ks.t WHERE k|\
        SELECT * FROM ks.t WHERE k =|SELECT * FROM ks.t WHERE k < 3|SELECT * FROM ks.t WHERE k = 3 LIMIT 1|SELECT * FROM ks.t; SELECT|\
        SELECT * FROM ks.t IF k = 3|SELECT * FROM ks.t WHERE t = 'x|USE|USE ks ks|INSERT INTO ks.t (k) VALUES (1)|;|'|é";
    let invalid = "SELECT * FROM ks.nothing|SELECT * FROM t|SELECT * FROM nothing.t|SELECT x FROM ks.t|SELECT * FROM ks.t WHERE x = 3|\
        SELECT * FROM ks.t WHERE k = 'x'|SELECT * FROM ks.t WHERE t = 3|SELECT * FROM ks.t WHERE k = 2147483648|SELECT * FROM ks.t WHERE k = ?|\
        SELECT * FROM ks.t WHERE l = 3|USE other|SELECT * FROM system.peers_v2";
    for (code, texts) in [(0x2000, syntax), (0x2000, ""), (0x2200, invalid)] {
        for text in texts.split('|') {
            let reply = ask(&node, query(text, plain()));
            assert_eq!(error(&reply.message).map(|(code, _)| code), Some(code), "{text}");
        }
    }
}

#[test]
fn a_statement_is_prepared_and_executed() {
    let node = Node::new().unwrap();
    let prepare = |text: &str| ask(&node, Message::Prepare(text.to_string())).message;
    let Message::Prepared(prepared) = prepare("SELECT t FROM ks.t WHERE k = ?") else {
        panic!("not prepared");
    };
    assert_eq!((prepared.keys.as_slice(), prepared.specs[0].name.as_str(), prepared.result.columns), (&[0][..], "k", 1));
    let rows = |params| match ask(&node, execute(&prepared.id, params)).message {
        Message::Rows(page) => Ok(page.cells.len()),
        message => Err(error(&message).unwrap().0),
    };
    assert_eq!(rows(params(None, None, Some(5), 2)), Ok(25));
    assert_eq!(rows(plain()), Err(0x2200));
    for content in [vec![], vec![1; 3], vec![1; 5]] {
        let values = Some(vec![(None, OwnedBound::Bytes(content.clone()))]);
        let expected = if content.is_empty() { Ok(0) } else { Err(0x2200) };
        assert_eq!(rows(QueryParams { flags: 1, values, ..plain() }), expected);
    }
    for value in [OwnedBound::Null, OwnedBound::Unset] {
        assert_eq!(rows(QueryParams { flags: 1, values: Some(vec![(None, value)]), ..plain() }), Err(0x2200));
    }
    assert!(matches!(prepare("SELECT k FROM ks.t WHERE c = ?"), Message::Prepared(prepared) if prepared.keys.is_empty()));
    assert_eq!(error(&prepare("USE ks")).unwrap().0, 0x2200);
    let as_long = |len| prepare(&padded("SELECT * FROM ks.t", len));
    assert!(matches!(as_long(65_535), Message::Prepared(prepared) if prepared.id.len() == 65_535));
    assert_eq!(error(&as_long(65_536)).unwrap().0, 0x2200);
    assert_eq!(error(&prepare("BAD")).unwrap().0, 0x2000);
    for id in [&b"none"[..], b"", b"\xff", b"USE ks"] {
        let message = ask(&node, execute(id, plain())).message;
        assert_eq!(error(&message).unwrap().0, 0x2500);
        assert!(matches!(message, Message::Error { extra: ErrorExtra::Unprepared { id: named }, .. } if named.as_slice() == id));
    }
}

fn batch(statements: usize) -> Message {
    let entries: Vec<_> = (0..statements).map(|_| BatchEntry::Text("INSERT".to_string(), vec![])).collect();
    Message::Batch { kind: 0, entries, consistency: 1, flags: 0, serial: None, timestamp: None }
}

#[test]
fn a_batch_is_answered_with_a_warning() {
    let reply = ask(&Node::new().unwrap(), batch(3));
    assert_eq!(reply.message, Message::Void);
    assert_eq!(reply.warnings.unwrap()[0].as_str(), "statements that changed nothing: 3");
}

/// A QUERY of so many fields, of which all but four are values.
fn with_fields(fields: u32) -> Message {
    let values: Vec<_> = (4..fields).map(|_| (None, OwnedBound::Null)).collect();
    query("SELECT * FROM ks.t WHERE k = 1", QueryParams { flags: 1, values: Some(values), ..plain() })
}

#[test]
fn the_longest_requests_are_answered() {
    let node = Node::new().unwrap();
    assert!(matches!(ask(&node, with_fields(MOST_FIELDS)).message, Message::Rows(rows) if rows.rows == 25));
    // The body of a QUERY has four bytes before its text, and three after it.
    let text = padded("SELECT * FROM ks.t WHERE k = 1", LONGEST_BODY as usize - 7);
    assert!(matches!(ask(&node, query(&text, plain())).message, Message::Rows(rows) if rows.rows == 25));
}

/// The ERROR that these bytes are answered by, after which the connection ends.
fn refused(sent: &[u8]) -> (i16, i32, String) {
    let (replies, is_refused) = exchange(&Node::new().unwrap(), sent, 1_000);
    let last = frames(&replies).pop().unwrap();
    assert!(is_refused);
    let (code, text) = error(&last.message).unwrap();
    (last.stream, code, text.to_string())
}

#[test]
fn what_is_no_request_ends_the_connection() {
    let header = |version: u8, flags: u8, opcode: u8, length: u32| {
        let bytes = [&[version, flags, 1, 2, opcode][..], &length.to_be_bytes()].concat();
        [&bytes[..], &[0xee; 100]].concat()
    };
    for (version, stream) in [(1, 1), (2, 1), (3, 0x0102), (5, 0x0102), (6, 0x0102), (0x47, 0x0102)] {
        let (id, code, text) = refused(&header(version, 0, 5, 0));
        assert_eq!((id, code), (stream, 0x000A));
        assert!(text.starts_with(&format!("Invalid or unsupported protocol version ({version})")));
    }
    let started = |rest: Vec<u8>| [startup(), rest].concat();
    for (sent, why) in [
        (header(4, 1, 5, 0), "Compressed at byte 1"),
        (header(4, 0, 0x77, 0), "BadOpcode at byte 4"),
        (header(0x84, 0, 5, 0), "BadDirection at byte 4"),
        (header(0x84, 0, 6, 0), "a response, or an opcode that is no request's"),
        (header(4, 0, 7, 10), "requests of this kind may not begin in the phase Fresh"),
        (started(header(4, 0, 7, 0xffff_ffff)), "BadLength at byte 5"),
        (started(header(4, 0, 7, LONGEST_BODY + 1)), "a request of more than 1048576 bytes"),
        (started(header(4, 0, 7, 1_000)), "BadCount at byte 40"),
        (started(header(4, 0, 5, 1_000)), "the connection ended within a request"),
        (started(bytes(258, with_fields(MOST_FIELDS + 1))), "too many fields"),
    ] {
        let (id, code, text) = refused(&sent);
        assert_eq!((id, code, text.as_str()), (258, 0x000A, why));
    }
}

/// Random numbers, the same in each run.
struct Random(u64);

impl Random {
    fn below(&mut self, bound: usize) -> usize {
        self.0 ^= self.0 << 13;
        self.0 ^= self.0 >> 7;
        self.0 ^= self.0 << 17;
        (self.0 % bound as u64) as usize
    }
}

#[test]
fn garbage_is_answered_by_frames_or_not_at_all() {
    let node = Node::new().unwrap();
    let mut random = Random(0x9e37_79b9_7f4a_7c15);
    let sent = [
        startup(),
        bytes(1, query("SELECT * FROM ks.t WHERE k = 3", params(Some(10), Some(vec![0; 8]), Some(3), 0))),
        bytes(2, Message::Prepare("SELECT t FROM ks.t WHERE k = ?".to_string())),
        bytes(3, execute(b"SELECT t FROM ks.t WHERE k = ?", params(Some(10), None, Some(3), 2))),
        bytes(4, batch(2)),
        bytes(5, query("SELECT * FROM system.local WHERE key='local'", plain())),
    ]
    .concat();
    for _ in 0..2_000 {
        let mut changed = sent.clone();
        for _ in 0..=random.below(4) {
            let at = random.below(changed.len());
            changed[at] = if random.below(2) == 0 { random.below(256) as u8 } else { changed[at] ^ (1 << random.below(8)) };
        }
        changed.truncate(changed.len() - random.below(20));
        let (replies, _) = exchange(&node, &changed, 1 + random.below(300));
        frames(&replies);
    }
    for _ in 0..500 {
        let noise: Vec<u8> = (0..random.below(200)).map(|_| random.below(256) as u8).collect();
        frames(&exchange(&node, &noise, usize::MAX).0);
    }
}

/// A server in a thread of its own.
struct Served {
    address: SocketAddr,
    ended: Receiver<()>,
}

impl Served {
    /// One that serves this many connections; none where there is no loopback connection.
    fn start(connections: usize) -> Option<Served> {
        let listener = TcpListener::bind((Ipv4Addr::LOCALHOST, 0)).ok()?;
        let address = listener.local_addr().ok()?;
        let (sender, ended) = channel();
        thread::spawn(move || {
            listen(&listener, connections, &Node::new().unwrap());
            sender.send(())
        });
        Some(Served { address, ended })
    }

    fn connect(&self) -> TcpStream {
        let stream = TcpStream::connect(self.address).unwrap();
        stream.set_nodelay(true).unwrap();
        stream.set_read_timeout(Some(Duration::from_secs(20))).unwrap();
        stream
    }

    /// Waits until it has ended, all of its connections having come and ended.
    fn finish(self) {
        self.ended.recv_timeout(Duration::from_secs(20)).unwrap();
    }
}

/// Sends OPTIONS many times. Whether each reply is there within a second.
fn is_answered_at_once(stream: &mut TcpStream) -> bool {
    (0..100).all(|_| {
        let (start, mut reply) = (Instant::now(), [0; 75]);
        let is_there = stream.write_all(&REQUESTS[..9]).and_then(|()| stream.read_exact(&mut reply)).is_ok();
        is_there && reply == REPLIES[..75] && start.elapsed() < Duration::from_secs(1)
    })
}

#[test]
fn a_client_that_floods_stops_no_other() {
    let Some(served) = Served::start(4) else {
        return;
    };
    let sent = [startup(), bytes(1, query("SELECT * FROM ks.t", plain())).repeat(1_000)].concat();
    let is_over = AtomicBool::new(false);
    let is_answered = thread::scope(|scope| {
        for mut writer in [served.connect(), served.connect(), served.connect()] {
            let mut reader = writer.try_clone().unwrap();
            let (sent, is_over) = (&sent, &is_over);
            scope.spawn(move || while !is_over.load(Ordering::Relaxed) && writer.write_all(sent).is_ok() {});
            scope.spawn(move || {
                let mut room = vec![0; 1 << 20];
                while !is_over.load(Ordering::Relaxed) && reader.read(&mut room).unwrap_or(0) > 0 {}
                let _ = reader.shutdown(Shutdown::Both);
            });
        }
        thread::sleep(Duration::from_millis(300));
        let is_answered = is_answered_at_once(&mut served.connect());
        is_over.store(true, Ordering::Relaxed);
        is_answered
    });
    assert!(is_answered);
    served.finish();
}

#[test]
fn a_client_that_does_not_read_is_not_read_either() {
    let Some(served) = Served::start(2) else {
        return;
    };
    let mut silent = served.connect();
    silent.set_write_timeout(Some(Duration::from_millis(500))).unwrap();
    silent.write_all(&startup()).unwrap();
    let queries = bytes(1, query("SELECT * FROM ks.t", plain())).repeat(1_000);
    // The system holds some megabytes at most for a socket, and these are 68.
    let fault = (0..2_000).find_map(|_| silent.write_all(&queries).err()).unwrap();
    assert!(matches!(fault.kind(), ErrorKind::WouldBlock | ErrorKind::TimedOut));
    assert!(is_answered_at_once(&mut served.connect()));
    drop(silent);
    served.finish();
}

#[test]
fn a_client_that_is_refused_hears_why_though_it_sends_more() {
    let Some(served) = Served::start(1) else {
        return;
    };
    let mut stream = served.connect();
    stream.write_all(&[REQUESTS, &[0xee; 300_000]].concat()).unwrap();
    let mut replies = Vec::new();
    stream.read_to_end(&mut replies).unwrap();
    assert_eq!(replies, REPLIES);
    drop(stream);
    served.finish();
}

#[test]
fn one_connection_too_many_is_closed() {
    let Some(served) = Served::start(MOST_CONNECTIONS + 2) else {
        return;
    };
    let mut streams: Vec<_> = (0..MOST_CONNECTIONS).map(|_| served.connect()).collect();
    assert!(is_answered_at_once(streams.last_mut().unwrap()));
    assert_eq!(served.connect().read(&mut [0]).unwrap(), 0);
    let mut first = streams.swap_remove(0);
    first.shutdown(Shutdown::Write).unwrap();
    assert_eq!(first.read(&mut [0]).unwrap(), 0);
    thread::sleep(Duration::from_millis(200));
    assert!(is_answered_at_once(&mut served.connect()));
    drop(streams);
    served.finish();
}
