//! What lies between a socket and messages: in whatever pieces bytes come, the frames, requests and replies are the same, and what is no
//! frame of version 4 passes on or is answered.
#![forbid(unsafe_code)]

#[path = "../examples/ask_rows.rs"]
mod ask_rows;
#[path = "../examples/serve_rows.rs"]
mod serve_rows;

use cqlp::frame::{Frame, Message, Metadata, QueryParams, Spec, Value, encode};
use cqlp::rows::{BindFault, RowError, RowSink, page_rows};
use cqlp::session::{BeginError, RequestKind, Stray};
use cqlp::wire::{
    AnyHeader, Arrival, CellPlace, ClientSide, FrameReader, Inbox, KeepError, Outbox, PageTrack, Response, ServerSide, TextAlterer,
    WireError,
};
use cqlp::{Consistency, Decoder, ErrorCode, Event, Header, Kind, Limits, OfStd, Reason, Step, Target, bind};
use std::error::Error;
use std::io::{self, ErrorKind, Read, Write};
use std::net::{Ipv4Addr, TcpListener};
use std::sync::mpsc::channel;
use std::thread;
use std::time::Duration;

fn one() -> QueryParams {
    QueryParams::new(Consistency::One)
}

fn columns() -> Vec<Spec> {
    vec![Spec::new("id", Kind::Int), Spec::new("name", Kind::Varchar)]
}

fn page(stream: i16, names: &[&str]) -> Frame {
    let cells = names.iter().zip(1..).flat_map(|(&name, id)| [Value::from(id), Value::from(name)]).collect();
    Frame::plain(stream, Message::rows("ks", "t", columns(), cells))
}

fn bytes_of(frames: &[Frame]) -> Vec<u8> {
    frames.iter().flat_map(|frame| frame.to_bytes().unwrap()).collect()
}

/// Of each first byte, the header is what the specification of its version says, and none of fewer bytes.
#[test]
fn headers_of_every_version() {
    for first in 0..=u8::MAX {
        let short = matches!(first & 0x7f, 1 | 2);
        let bytes: &[u8] = if short { &[first, 2, 0xfe, 5, 0, 1, 0, 3] } else { &[first, 2, 0xff, 0xfe, 5, 0, 1, 0, 3] };
        for len in 0..bytes.len() {
            assert_eq!(AnyHeader::read(&bytes[..len]), None);
        }
        let header = AnyHeader::read(bytes).unwrap();
        assert_eq!((header.size(), AnyHeader::size_of(first)), (bytes.len(), bytes.len()));
        assert_eq!((header.version, header.is_response), (first % 128, first >= 128));
        assert_eq!((header.flags, header.stream, header.opcode, header.length), (2, -2, 5, 65_539));
        assert_eq!(header.is_framed(), (1..=4).contains(&(first % 128)));
        match <&[u8; 9]>::try_from(bytes) {
            Ok(nine) => assert_eq!(header.to_header(), Header::from_bytes(nine)),
            Err(_) => assert_eq!(header.to_header().unwrap_err().why, Reason::BadVersion),
        }
        let error = header.version_error().unwrap();
        assert_eq!(error.stream, -2, "version {}", header.version);
        assert!(format!("{error:?}").contains(&format!("protocol version ({})", first % 128)));
    }
}

/// Frames are gathered, and what is not wanted passes, in pieces of every size; from version 5 on all passes.
#[test]
fn an_inbox_gathers_and_passes() {
    let frames =
        [Frame::plain(1, Message::query("SELECT", one())), Frame::plain(2, Message::Options), Frame::plain(3, Message::query("x", one()))];
    let mut came = bytes_of(&frames);
    let second_version = [2, 0, 7, 5, 0, 0, 0, 2, 0xaa, 0xbb];
    let fifth_version = [5, 0, 0, 9, 5, 0, 0, 0, 0, 1, 2, 3, 4, 5, 6, 7, 8, 9, 10];
    came.extend(second_version);
    came.extend(frames[2].to_bytes().unwrap());
    came.extend(fifth_version);
    for size in 1..=came.len() {
        let (mut inbox, mut gathered, mut passed) = (Inbox::new(1_000), Vec::new(), Vec::<u8>::new());
        for piece in came.chunks(size) {
            inbox.push(piece).unwrap();
            while let Some((arrival, bytes)) = inbox.next(|header| header.opcode == 7) {
                match arrival {
                    Arrival::Frame(header) => gathered.push((header.stream, bytes.to_vec())),
                    Arrival::Passing(_) => passed.extend(bytes),
                }
            }
        }
        let wanted = [&frames[0], &frames[2], &frames[2]].map(|frame| (frame.stream, frame.to_bytes().unwrap()));
        assert_eq!(gathered, wanted, "pieces of {size} bytes");
        assert_eq!(passed, [&bytes_of(&frames[1..2])[..], &second_version, &fifth_version].concat());
        assert!(inbox.rest().is_empty());
    }
}

/// A length that a header announces takes no memory, and too long a frame passes.
#[test]
fn an_inbox_takes_memory_for_what_came() {
    let mut inbox = Inbox::default();
    inbox.push(&[4, 0, 0, 1, 7, 0x10, 0, 0, 0]).unwrap();
    assert_eq!(inbox.next(|_| true), None);
    assert!(inbox.room().unwrap().len() <= 64 << 10);
    let mut inbox = Inbox::new(4);
    inbox.push(&[4, 0, 0, 1, 7, 0, 0, 0, 5, 1, 2]).unwrap();
    let (arrival, bytes) = inbox.next(|_| true).unwrap();
    assert!(matches!(arrival, Arrival::Passing(header) if header.length == 5));
    assert_eq!((bytes.len(), inbox.is_passing()), (11, true));
    inbox.push(&[3, 4, 5]).unwrap();
    assert_eq!(inbox.next(|_| true).unwrap().1, [3, 4, 5]);
    assert!(!inbox.is_passing());
}

/// Replies come in another order than their requests, an event between them, and each has what its request carries.
#[test]
fn a_client_hears_its_replies() {
    let event = Frame::plain(-1, Message::Event { event: "SOME".into(), detail: cqlp::frame::ServerEvent::Unknown });
    let came = bytes_of(&[page(2, &["a"]), event, page(0, &["b"]), page(1, &["given up"]), page(3, &["c", "d"])]);
    for size in 1..=came.len() {
        let mut client = ready_client();
        let tickets = ["first", "second", "third", "fourth"].map(|carried| client.ask(Message::query(carried, one()), carried).unwrap());
        assert!(client.cancel(tickets[1]));
        let mut heard = Vec::new();
        for piece in came.chunks(size) {
            client.inbox().push(piece).unwrap();
            while let Some(one) = client.hear().unwrap() {
                match one {
                    Response::Reply { carried, kind, header } => {
                        assert_eq!((kind, client.frame().len()), (RequestKind::Query, header.length as usize + 9));
                        heard.push((carried, page_rows::<(i32, String)>(client.frame()).unwrap().count()));
                    }
                    _ => heard.push(("event", 0)),
                }
            }
        }
        assert_eq!(heard, [("third", 1), ("event", 0), ("first", 1), ("fourth", 2)], "pieces of {size} bytes");
    }
}

/// A client of four slots on a connection that is set up, which has sent all.
fn ready_client() -> ClientSide<&'static str> {
    let mut client = ClientSide::new(4).unwrap();
    client.ask(Message::startup(), "startup").unwrap();
    client.inbox().push(&Frame::plain(0, Message::Ready).to_bytes().unwrap()).unwrap();
    assert!(matches!(client.hear(), Ok(Some(Response::Reply { carried: "startup", .. }))));
    let count = client.outbox().bytes().len();
    client.outbox().sent(count);
    client
}

/// What is no request is not sent, and takes no slot; all slots may be taken.
#[test]
fn a_client_asks_what_it_may() {
    let mut client = ready_client();
    assert_eq!(client.ask(Message::Ready, ""), Err(WireError::NoRequest));
    let unfit = client.ask(Message::query("x", QueryParams { flags: 1, ..one() }), "").unwrap_err();
    assert!(matches!(unfit, WireError::Unfit(_)) && unfit.source().is_some());
    assert!(client.outbox().bytes().is_empty());
    for _ in 0..4 {
        client.ask(Message::Options, "").unwrap();
    }
    assert_eq!(client.ask(Message::Options, ""), Err(WireError::Begin(BeginError::Full)));
    assert_eq!(ClientSide::<()>::new(0).unwrap_err(), WireError::Slots);
}

/// What is no reply is said at once, before its body.
#[test]
fn a_client_refuses_what_is_no_reply() {
    let hear = |bytes: &[u8], longest| {
        let mut client = ClientSide::<()>::with_longest(1, longest).unwrap();
        client.ask(Message::startup(), ()).unwrap();
        client.inbox().push(bytes).unwrap();
        client.hear().unwrap_err()
    };
    assert_eq!(hear(&[0x84, 0, 0, 5, 2, 0, 0, 0, 0], 100), WireError::Stray(Stray::NoSuchStream));
    let compressed = hear(&[0x84, 1, 0, 0, 2, 0, 0, 0, 9], 100);
    assert_eq!(compressed.to_string(), "the body under the stream id 0 is compressed: the driver's compression has to be off");
    let other = hear(&[0x85, 0, 0, 0, 2, 0, 0, 0, 9], 100);
    assert_eq!(other.to_string(), "no header of version 4: BadVersion, version 5, stream id 0, opcode 0x02");
    let long = hear(&[0x84, 0, 0, 0, 2, 0, 0, 0, 101], 100);
    assert_eq!(long.to_string(), "a body of 101 bytes, where 100 are held: a greater limit, or pages of fewer rows, would do");
}

/// A page is heard row by row, without metadata, in pieces of every size; an ERROR leaves the connection as it was.
#[test]
fn a_client_hears_rows_as_they_come() {
    let bare = Frame::plain(0, Message::bare_rows(Metadata::omitted(2), 3));
    let (mut server, mut sent) = (ready_server(), Vec::new());
    let rows = [(1, "a"), (2, ""), (3, "c")];
    server.send_rows::<_, Box<dyn Error>>(&mut sent, &bare, &columns(), rows.iter().copied()).unwrap();
    sent.extend(server.outbox().bytes());
    let error = Frame::plain(1, Message::error(ErrorCode::Invalid, "no such table")).to_bytes().unwrap();
    for size in 1..=sent.len() {
        let mut client = ready_client();
        client.ask(Message::query("bare", one()), "bare").unwrap();
        client.ask(Message::query("error", one()), "error").unwrap();
        let mut decoder = Decoder::new(Limits::DEFAULT).unwrap();
        decoder.give(cqlp::table_of_specs(&columns()).unwrap()).unwrap();
        let mut came = Vec::new();
        let mut sink = RowSink::new(|row: (i32, String)| {
            came.push(row);
            Ok(())
        });
        let mut carried = None;
        for piece in sent.chunks(size) {
            assert_eq!(carried, None);
            client.inbox().push(piece).unwrap();
            carried = client.hear_rows(&mut decoder, &mut sink).unwrap();
        }
        assert_eq!(carried, Some("bare"));
        client.inbox().push(&error).unwrap();
        let refused = client.hear_rows(&mut decoder, &mut sink).unwrap_err();
        assert_eq!(refused, WireError::Row(RowError::Server { code: 0x2200, message: "no such table".to_string() }));
        drop(sink);
        assert!(came.iter().map(|(id, name)| (*id, name.as_str())).eq(rows), "pieces of {size} bytes");
    }
}

/// A server to which a QUERY came under the stream id 0, on a connection that is set up.
fn ready_server() -> ServerSide {
    let mut server = ServerSide::new(1_000).unwrap();
    let requests = bytes_of(&[Frame::plain(0, Message::startup()), Frame::plain(0, Message::query("x", one()))]);
    for byte in requests {
        server.inbox().push(&[byte]).unwrap();
        if server.hear().unwrap().is_some_and(|request| request.message == Message::startup()) {
            server.answer(&Frame::plain(0, Message::Ready)).unwrap();
        }
    }
    let count = server.outbox().bytes().len();
    server.outbox().sent(count);
    server
}

/// A page is the same as one with its cells, and rows of other columns are none.
#[test]
fn a_server_sends_rows() {
    let frame = Frame::plain(0, Message::bare_rows(Metadata::of_table("ks", "t", columns()), 2));
    let mut server = ready_server();
    let send = |server: &mut ServerSide, rows: &[(i32, &str)]| {
        server.send_rows::<_, Box<dyn Error>>(io::sink(), &frame, &columns(), rows.iter().copied())
    };
    assert!(send(&mut server, &[(1, "a")]).is_err());
    let mut server = ready_server();
    send(&mut server, &[(1, "a"), (2, "b")]).unwrap();
    assert_eq!(server.outbox().bytes(), page(0, &["a", "b"]).to_bytes().unwrap());
    assert!(send(&mut server, &[(1, "a"), (2, "b")]).unwrap_err().to_string().contains("no request is open"));
    let mut server = ready_server();
    let wrong = server.send_rows::<_, Box<dyn Error>>(io::sink(), &frame, &columns(), [(1, 2), (3, 4)].into_iter()).unwrap_err();
    assert_eq!(wrong.to_string(), "value 1 \"name\": varchar is wanted, which String writes, and i32 is given");
    let short = server.send_rows::<_, Box<dyn Error>>(io::sink(), &frame, &columns(), [(1,), (3,)].into_iter()).unwrap_err();
    assert!(matches!(short.downcast_ref(), Some(WireError::Bind(BindFault::Count { wanted: 2, given: 1 }))));
}

/// A request that is refused gets an ERROR under its stream id, by which drivers try version 4 or see what is wrong.
#[test]
fn a_server_says_why_it_refuses() {
    let refused = |bytes: &[u8]| {
        let mut server = ServerSide::new(100).unwrap();
        server.inbox().push(bytes).unwrap();
        let why = server.hear().unwrap_err();
        let error = FrameReader::new().unwrap().read(server.outbox().bytes()).unwrap();
        let Message::Error { code, message, .. } = error.message else { panic!("no ERROR") };
        assert_eq!(code, 10);
        (error.stream, message, why)
    };
    let (stream, text, _) = refused(&[5, 0, 0, 7, 5, 0, 0, 0, 0]);
    assert!(stream == 7 && text.contains("the greatest is 4"));
    let (stream, text, _) = refused(&[2, 0, 7, 5, 0, 0, 0, 0]);
    assert!(stream == 7 && text.contains("version (2)"));
    let (stream, text, _) = refused(&[4, 1, 1, 7, 5, 0, 0, 0, 0]);
    assert!(stream == 0x107 && text.contains("compressed"));
    let (stream, text, _) = refused(&[4, 0, 0, 7, 7, 0, 0, 0, 101]);
    assert!(stream == 7 && text.contains("101 bytes"));
    let (stream, _, why) = refused(&Frame::plain(9, Message::query("x", one())).to_bytes().unwrap());
    assert!(stream == 9 && matches!(why, WireError::Refusal(_)));
    let (stream, _, why) = refused(&[4, 0, 0, 3, 1, 0, 0, 0, 2, 0, 9]);
    assert!(stream == 3 && matches!(why, WireError::Refused(_)));
}

/// A reader of frames goes on after a frame that is cut or refused.
#[test]
fn frames_are_read_one_by_one() {
    let mut reader = FrameReader::new().unwrap();
    let bytes = page(4, &["a"]).to_bytes().unwrap();
    for len in 0..bytes.len() {
        assert_eq!(reader.read(&bytes[..len]), Err(WireError::Cut));
    }
    assert!(matches!(reader.read(&[0x84, 0, 0, 0, 0x77, 0, 0, 0, 0]), Err(WireError::Refused(_))));
    assert_eq!(reader.read(&bytes), Ok(page(4, &["a"])));
    assert_eq!(reader.read(&bytes_of(&[page(5, &[]), page(6, &["b"])])), Ok(page(5, &[])));
}

/// A frame without the text goes on as it came, and one that is cut is none.
#[test]
fn texts_are_altered() {
    let mut alterer = TextAlterer::new(1_000).unwrap();
    let bytes = Frame::plain(1, Message::query("a", one().with_values(bind!(&columns(); 1, "a").unwrap()))).to_bytes().unwrap();
    assert_eq!(alterer.alter(&bytes, |_, _| None), Ok(None));
    assert_eq!(alterer.alter(&bytes[..bytes.len() - 1], |_, _| None), Err(WireError::Cut));
    let longer = alterer.alter(&bytes, |_, text| Some(text.repeat(3))).unwrap().unwrap();
    assert_eq!(longer.len(), bytes.len() + 2);
    assert!(matches!(alterer.alter(&bytes, |_, text| Some(text.repeat(2_000))), Err(WireError::Build(_))));
}

/// The column of the bytes that come next, cell by cell, over a cell with items too, and of which cell each event was.
#[test]
fn a_page_is_tracked() {
    let list = Spec::new("tags", cqlp::frame::TypeTree::list(Kind::Varchar));
    let cells = vec![Value::List(vec![Value::from("x"), Value::from("y")]), Value::from(1), Value::Null, Value::from(2)];
    let frames = [Frame::plain(1, Message::rows("ks", "t", vec![list, Spec::new("id", Kind::Int)], cells)), page(2, &["a"])];
    let (bytes, mut decoder, mut track) = (bytes_of(&frames), Decoder::new(Limits::DEFAULT).unwrap(), PageTrack::default());
    let (mut rest, mut seen, mut places) = (&bytes[..], Vec::new(), Vec::new());
    while let Step::Event { used, event, .. } = decoder.next(rest) {
        rest = &rest[used..];
        if matches!(event, Event::Leaf { .. } | Event::Null { .. } | Event::Enter { .. }) {
            seen.push(track.column().map(|column| (column.name.clone(), column.kind)));
        }
        track.take(&event).unwrap();
        places.extend(track.place().map(|CellPlace { row, column }| (row, column, matches!(event, Event::Leave { .. }))));
        assert!(!track.is_bare());
    }
    let (tags, id, name) = (("tags", Kind::List), ("id", Kind::Int), ("name", Kind::Varchar));
    let wanted = [tags, tags, tags, id, tags, id, id, name].map(|(name, kind)| Some((name.to_string(), kind)));
    assert_eq!(seen, wanted);
    let (items, end) = ((0, 0, false), (0, 0, true));
    assert_eq!(places, [items, items, items, end, (0, 1, false), (1, 0, false), (1, 1, false), (0, 0, false), (0, 1, false)]);
}

/// A socket that takes some bytes and would wait then.
struct Slow(Vec<u8>, usize);

impl Write for Slow {
    fn write(&mut self, bytes: &[u8]) -> io::Result<usize> {
        if self.1 == 0 {
            return Err(io::Error::new(ErrorKind::WouldBlock, "the socket would wait"));
        }
        let count = bytes.len().min(self.1);
        self.1 -= count;
        self.0.extend(&bytes[..count]);
        Ok(count)
    }

    fn flush(&mut self) -> io::Result<()> {
        Ok(())
    }
}

/// What a socket does not take stays, and the error of a call is kept as it came.
#[test]
fn what_is_not_sent_stays() {
    let (mut out, mut slow) = (Outbox::default(), Slow(Vec::new(), 5));
    Target::write(&mut out, b"ninebytes").unwrap();
    assert_eq!(out.send(&mut slow).unwrap_err().kind(), ErrorKind::WouldBlock);
    assert_eq!((out.bytes(), &slow.0[..]), (&b"ytes"[..], &b"nineb"[..]));
    Target::write(&mut out, b", and more").unwrap();
    assert_eq!(out.bytes(), b"ytes, and more");
    slow.1 = 100;
    out.send(&mut slow).unwrap();
    assert!(out.bytes().is_empty() && slow.0 == b"ninebytes, and more");

    let mut target = OfStd::new(KeepError::new(Slow(Vec::new(), 3)));
    assert!(encode(&Frame::plain(1, Message::Options), &mut target).is_err());
    assert_eq!(target.inner.take_error().unwrap().to_string(), "the socket would wait");
    assert!(target.inner.take_error().is_none() && KeepError::new(&b"x"[..]).read(&mut [0; 4]).unwrap() == 1);
}

/// What the examples do over sockets: many requests open, pages without metadata, and a page of many rows, none of which waits at a
/// frame's end. Nothing is tried where there is no loopback connection.
#[test]
fn rows_are_asked_for_and_served() {
    let Ok(listener) = TcpListener::bind((Ipv4Addr::LOCALHOST, 0)) else { return };
    let port = listener.local_addr().unwrap().port();
    thread::spawn(move || serve_rows::listen(&listener));
    let (done, finished) = channel();
    thread::spawn(move || done.send(ask_rows::ask(port, 30_000).map_err(|fault| fault.to_string())));
    let (count, sum) = finished.recv_timeout(Duration::from_secs(60)).expect("it does not hang").unwrap();
    assert_eq!((count, sum), (30_000, 3 * (0..30_000).sum::<i64>()));
}
