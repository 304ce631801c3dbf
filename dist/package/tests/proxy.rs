//! The worked proxy, examples/proxy, between a client and a node that are threads here and say what a script has: all bytes come through as they
//! were sent, in pieces of odd sizes, and the lines are those of the script. Where there is no loopback connection, nothing is tried over one.
#![forbid(unsafe_code)]

#[path = "../examples/proxy/line.rs"]
mod line;
#[path = "../examples/proxy/observer.rs"]
mod observer;
#[path = "../examples/proxy/relay.rs"]
mod relay;

use cqlp::frame::{Atom, Frame, Message, Metadata, Rows, Spec, TypeTree, Value, encode};
use cqlp::{Decoder, Kind, Limits, OfStd, Step};
use observer::{Observer, Seen, WAITING, Way};
use std::io::{ErrorKind, Read, Write};
use std::net::{Ipv4Addr, Shutdown, TcpListener, TcpStream};
use std::sync::{Arc, Mutex, mpsc};
use std::thread;
use std::time::{Duration, Instant};

/// Bytes that go one way, after those of the turns before.
struct Turn {
    way: Way,
    bytes: Vec<u8>,
}

/// A conversation, and the lines that are written of it, without their times.
struct Script {
    turns: Vec<Turn>,
    lines: &'static str,
}

/// A frame with this body, of version 4.
fn raw(way: Way, flags: u8, stream: i16, opcode: u8, body: &[u8]) -> Turn {
    let version = if way == Way::Requests { 0x04 } else { 0x84 };
    let [high, low] = stream.to_be_bytes();
    let mut bytes = vec![version, flags, high, low, opcode];
    bytes.extend((body.len() as u32).to_be_bytes());
    bytes.extend(body);
    Turn { way, bytes }
}

/// A QUERY or a PREPARE.
fn asked(stream: i16, opcode: u8, statement: &[u8], rest: &[u8]) -> Turn {
    let mut body = (statement.len() as u32).to_be_bytes().to_vec();
    body.extend(statement);
    body.extend(rest);
    raw(Way::Requests, 0, stream, opcode, &body)
}

fn query(stream: i16, statement: &str) -> Turn {
    asked(stream, QUERY, statement.as_bytes(), &[0, 1, 0])
}

fn replied(stream: i16, opcode: u8, body: &[u8]) -> Turn {
    raw(Way::Responses, 0, stream, opcode, body)
}

const ERROR: u8 = 0x00;
const STARTUP: u8 = 0x01;
const READY: u8 = 0x02;
const OPTIONS: u8 = 0x05;
const SUPPORTED: u8 = 0x06;
const QUERY: u8 = 0x07;
const RESULT: u8 = 0x08;
const PREPARE: u8 = 0x09;
const EVENT: u8 = 0x0c;

/// The body of a RESULT of the kind Void.
const VOID: &[u8] = &[0, 0, 0, 1];

/// A page of two rows, with a cell that is longer than a decoder's limit.
fn page(stream: i16) -> Turn {
    let spec = Spec { table: None, name: "b".to_string(), tree: TypeTree::Plain(Kind::Blob) };
    let table = Some(("ks".to_string(), "t".to_string()));
    let meta = Metadata { flags: 1, columns: 1, paging: None, table, specs: Some(vec![spec]) };
    let long = vec![7; Limits::DEFAULT.cell as usize + 1];
    let cells = vec![Value::Leaf(Atom::Blob(long)), Value::Null];
    let mut bytes = OfStd::new(Vec::new());
    encode(&Frame::plain(stream, Message::Rows(Rows { meta, rows: 2, cells })), &mut bytes).unwrap();
    Turn { way: Way::Responses, bytes: bytes.into_inner() }
}

/// Whether a decoder refuses the frame.
fn is_refused(turn: &Turn) -> bool {
    let mut decoder = Decoder::new(Limits::DEFAULT).unwrap();
    let mut rest = &turn.bytes[..];
    loop {
        match decoder.next(rest) {
            Step::Event { used, .. } => rest = &rest[used..],
            Step::More { .. } => return false,
            Step::Refused(_) => return true,
        }
    }
}

/// A connection that opens, a page, a statement that is too long to be kept, an event of the node's, and replies in another order than their requests.
fn common() -> Script {
    let long = format!("SELECT * FROM ks.t WHERE k IN ({})", "1, ".repeat(40));
    let page = page(1);
    assert!(is_refused(&page));
    let turns = vec![
        raw(Way::Requests, 0, 0, OPTIONS, b""),
        replied(0, SUPPORTED, b"\0\0"),
        raw(Way::Requests, 0, 0, STARTUP, b"\0\x01\0\x0bCQL_VERSION\0\x053.0.0"),
        replied(0, READY, b""),
        query(1, "SELECT b FROM ks.t"),
        page,
        asked(2, PREPARE, long.as_bytes(), b""),
        query(3, "SELECT \"K\"\nFROM ks.ü"),
        query(-32768, "BAD"),
        replied(-32768, ERROR, b"\0\0\x20\0\0\x03bad"),
        replied(-1, EVENT, b"\0\x0dSTATUS_CHANGE\0\x02UP\x04\x7f\0\0\x01\0\0\x23\x52"),
        replied(3, RESULT, VOID),
        replied(2, RESULT, b"\0\0\0\x04\0\x01i\0\0\0\0\0\0\0\0\0\0\0\0\0\0\0\x04\0\0\0\0"),
    ];
    let lines = "1:0 OPTIONS 9 -> SUPPORTED 11\n\
        1:0 STARTUP 31 -> READY 9\n\
        1:1 QUERY \"SELECT b FROM ks.t\" 34 -> RESULT ROWS 2x1 1048622\n\
        1:-32768 QUERY \"BAD\" 19 -> ERROR 2000 18\n\
        1:-1 EVENT 37\n\
        1:3 QUERY \"SELECT \\\"K\\\"\\nFROM ks.ü\" 37 -> RESULT VOID 13\n\
        1:2 PREPARE \"SELECT * FROM ks.t WHERE k IN (1, 1, 1, 1, 1, 1, 1, 1, 1, 1, 1, 1, 1, 1, 1, 1, 1\".. 165 -> RESULT PREPARED 36\n";
    Script { turns, lines }
}

/// Bodies that a decoder refuses, or does not read, and messages without the other of their exchange.
fn odd() -> Script {
    let text = asked(1, QUERY, b"SELECT \xff", &[0, 1, 0]);
    let columns = replied(1, RESULT, b"\0\0\0\x02\0\0\0\x01\xff\xff\xff\xff");
    let compressed = raw(Way::Responses, 1, 4, RESULT, b"\x04\x40\0\0\0\x01");
    assert!([&text, &columns, &compressed].into_iter().all(is_refused));
    let turns = vec![
        text,
        columns,
        query(2, "SELECT 1"),
        replied(2, RESULT, &[]),
        asked(3, PREPARE, &[], b""),
        replied(3, ERROR, b"\0\0"),
        raw(Way::Requests, 1, 4, QUERY, b"\x09compressed"),
        compressed,
        raw(Way::Requests, 4, 5, QUERY, b"\0\x01\0\x01k\0\0\0\x01v\0\0\0\x06SELECT\0\x01\0"),
        raw(Way::Responses, 2, 5, RESULT, &[&[7; 16], VOID].concat()),
        query(6, "SELECT first"),
        query(6, "SELECT second"),
        replied(7, RESULT, VOID),
    ];
    let lines = "1:1 QUERY \"SELECT �\" 24 -> RESULT ROWS 21\n\
        1:2 QUERY \"SELECT 1\" 24 -> RESULT 9\n\
        1:3 PREPARE \"\" 13 -> ERROR 11\n\
        1: requests are compressed from byte 61 on: told by their headers\n\
        1: responses are compressed from byte 41 on: told by their headers\n\
        1:4 QUERY 20 -> RESULT 15\n\
        1:5 QUERY \"SELECT\" 32 -> RESULT VOID 29\n\
        1:6 QUERY \"SELECT first\" 28 -> nothing\n\
        1:6 QUERY \"SELECT second\" 29 -> nothing\n\
        1:7 nothing -> RESULT VOID 13\n";
    Script { turns, lines }
}

/// A client of version 5, which a node of version 4 answers; and then bytes that are nobody's frames.
fn other_version() -> Script {
    let turns = vec![
        Turn { way: Way::Requests, bytes: vec![5, 0, 0, 7, OPTIONS, 0, 0, 0, 0] },
        replied(7, ERROR, b"\0\0\0\x0a\0\x03bad"),
        Turn { way: Way::Requests, bytes: vec![0xee; 1_000] },
        Turn { way: Way::Responses, bytes: vec![4; 1_000] },
    ];
    let lines = "1: requests are not of version 4 from byte 0 on: passed on unread\n\
        1: responses are not of version 4 from byte 18 on: passed on unread\n\
        1:7 nothing -> ERROR 000a 18\n";
    Script { turns, lines }
}

/// Lines that are kept.
#[derive(Clone, Default)]
struct Kept(Arc<Mutex<Vec<u8>>>);

impl Write for Kept {
    fn write(&mut self, bytes: &[u8]) -> std::io::Result<usize> {
        self.0.lock().unwrap().write(bytes)
    }

    fn flush(&mut self) -> std::io::Result<()> {
        Ok(())
    }
}

impl Kept {
    /// The lines without the times of those that end with one.
    fn without_times(&self) -> String {
        let said = String::from_utf8(self.0.lock().unwrap().clone()).unwrap();
        said.lines().map(|line| without_time(line).to_string() + "\n").collect()
    }
}

fn without_time(line: &str) -> &str {
    let Some((front, time)) = line.strip_suffix(" ms").and_then(|line| line.rsplit_once(' ')) else {
        return line;
    };
    assert!(time.parse::<f64>().is_ok(), "{line}");
    front
}

/// Two ends of a connection; none where there is no loopback connection.
fn connected() -> Option<(TcpStream, TcpStream)> {
    let listener = TcpListener::bind((Ipv4Addr::LOCALHOST, 0)).ok()?;
    let one = TcpStream::connect(listener.local_addr().ok()?).ok()?;
    let (other, _) = listener.accept().ok()?;
    for end in [&one, &other] {
        end.set_read_timeout(Some(Duration::from_secs(20))).unwrap();
        end.set_nodelay(true).unwrap();
    }
    Some((one, other))
}

/// Says what goes this way, in pieces of some size, and hears what goes the other. Then says no more, and hears that the other does not either.
fn speak(mut end: TcpStream, way: Way, turns: &[Turn], size: usize) {
    for turn in turns {
        if turn.way == way {
            turn.bytes.chunks(size.max(turn.bytes.len() / 100)).for_each(|piece| end.write_all(piece).unwrap());
        } else {
            let mut heard = vec![0; turn.bytes.len()];
            end.read_exact(&mut heard).unwrap();
            assert!(heard == turn.bytes);
        }
    }
    end.shutdown(Shutdown::Write).unwrap();
    assert_eq!(end.read(&mut [0]).unwrap(), 0);
}

/// The lines of a conversation over sockets.
fn over_sockets(script: &Script, size: usize) -> Option<String> {
    let ((client, near), (far, node)) = (connected()?, connected()?);
    let kept = Kept::default();
    let observer = Observer::new(1, kept.clone()).unwrap();
    thread::scope(|scope| {
        scope.spawn(|| speak(client, Way::Requests, &script.turns, size));
        scope.spawn(|| speak(node, Way::Responses, &script.turns, size + 2));
        relay::relay(near, far, observer, Instant::now()).unwrap();
    });
    Some(kept.without_times())
}

#[test]
fn conversations_come_through() {
    for script in [common(), odd(), other_version()] {
        for size in [1, 7, 4_095, 100_000] {
            if let Some(lines) = over_sockets(&script, size) {
                assert_eq!(lines, script.lines);
            }
        }
    }
}

#[test]
fn lines_do_not_depend_on_pieces() {
    for script in [common(), odd(), other_version()] {
        for size in [1, 2, 3, 5, 8, 9, 13, 255, 4_096, usize::MAX] {
            let kept = Kept::default();
            let mut observer = Observer::new(1, kept.clone()).unwrap();
            for turn in &script.turns {
                turn.bytes.chunks(size).for_each(|piece| observer.hear(turn.way, piece, 1_000));
            }
            observer.end(Way::Requests);
            observer.end(Way::Responses);
            observer.finish();
            assert_eq!(kept.without_times(), script.lines, "in pieces of {size}");
        }
    }
}

#[test]
fn times_are_between_the_first_byte_and_the_last() {
    let kept = Kept::default();
    let mut observer = Observer::new(3, kept.clone()).unwrap();
    let (asked, replied) = (query(1, "SELECT 1"), replied(1, RESULT, VOID));
    for (way, bytes, time) in [
        (Way::Requests, &asked.bytes[..1], 1_000_000),
        (Way::Requests, &asked.bytes[1..], 2_000_000),
        (Way::Responses, &replied.bytes[..4], 3_000_000),
        (Way::Responses, &replied.bytes[4..], 13_345_678),
    ] {
        observer.hear(way, bytes, time);
    }
    assert_eq!(*kept.0.lock().unwrap(), b"3:1 QUERY \"SELECT 1\" 24 -> RESULT VOID 13 12.345 ms\n");
}

#[test]
fn a_client_that_goes_away_ends_the_connection() {
    let (Some((mut client, near)), Some((far, mut node))) = (connected(), connected()) else {
        return;
    };
    let kept = Kept::default();
    let observer = Observer::new(1, kept.clone()).unwrap();
    let header = [0x84, 0, 0, 1, RESULT, 0x0f, 0, 0, 0];
    thread::scope(|scope| {
        scope.spawn(move || {
            client.write_all(&query(1, "SELECT 1").bytes).unwrap();
            client.read_exact(&mut [0; 100]).unwrap();
        });
        scope.spawn(move || {
            node.read_exact(&mut [0; 24]).unwrap();
            node.write_all(&header).unwrap();
            while node.write_all(&[0; 10_000]).is_ok() {}
        });
        relay::relay(near, far, observer, Instant::now()).unwrap();
    });
    assert_eq!(kept.without_times(), "1:1 QUERY \"SELECT 1\" 24 -> RESULT 0 251658249 cut\n");
}

#[test]
fn a_node_that_dies_in_mid_reply_ends_the_connection() {
    let (Some((mut client, near)), Some((far, mut node))) = (connected(), connected()) else {
        return;
    };
    let kept = Kept::default();
    let observer = Observer::new(1, kept.clone()).unwrap();
    let (done, is_done) = mpsc::channel();
    thread::spawn(move || {
        relay::relay(near, far, observer, Instant::now()).unwrap();
        done.send(()).unwrap();
    });
    client.write_all(&query(1, "SELECT 1").bytes).unwrap();
    node.read_exact(&mut [0; 24]).unwrap();
    let reply = replied(1, RESULT, VOID).bytes;
    node.write_all(&reply[..11]).unwrap();
    drop(node);
    let mut heard = Vec::new();
    client.read_to_end(&mut heard).unwrap();
    assert_eq!(heard, reply[..11]);
    // The client has said nothing since, and its own direction is open.
    is_done.recv_timeout(Duration::from_secs(10)).unwrap();
    assert_eq!(kept.without_times(), "1:1 QUERY \"SELECT 1\" 24 -> RESULT 13 cut\n");
    let query = query(2, "SELECT 2").bytes;
    client.write_all(&query).unwrap();
    thread::sleep(Duration::from_millis(100));
    assert_eq!(client.write_all(&query).unwrap_err().kind(), ErrorKind::BrokenPipe);
}

#[test]
fn no_more_messages_wait_than_there_is_room_for() {
    let kept = Kept::default();
    let mut observer = Observer::new(1, kept.clone()).unwrap();
    let room = WAITING * size_of::<cqlp::watch::SeenMessage<Seen>>();
    assert!(2 * relay::PIECE + room + size_of::<Observer<Kept>>() < 300_000, "{room} bytes");
    for stream in 0..=WAITING as i16 {
        observer.hear(Way::Requests, &query(stream, "SELECT 1").bytes, 1);
    }
    assert_eq!(kept.without_times(), format!("1:{WAITING} QUERY \"SELECT 1\" 24 -> nothing\n"));
}
