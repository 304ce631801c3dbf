//! Memory that is refused to the calls that take it from the process: each request in turn, and each with all after it. What a call
//! made until then is given back.

use crate::memory::refusing;
use cqlp::capture::{CaptureEnd, CaptureLimits, CaptureReader, CaptureStep, Control, NewReaderError, Stream, StreamSegment, StreamStep};
use cqlp::cells::{CellError, CellLimits, PageCellError, PageCells, PageProgress};
use cqlp::columns::{BatchLimits, Columns, MakeError, TakeError};
use cqlp::frame::{
    AppendError, Atom, BindError, BuildError, BuildLimits, Composer, Frame, FrameBuilder, Message, Metadata, OwnedBound, ReadError, Rows,
    Spec, TypeTree, Value, append, bind_value, raw_value, read_value,
};
use cqlp::memory::{AllocError, try_box};
use cqlp::session::{Client, ClientOf, Server, ServerOf, SlotsOrMemory};
use cqlp::{
    Decoder, Event, Field, Header, Kind, Limits, NewError, NoMemory, Node, Opcode, Scalar, Step, TableError, TypeTable, table_of,
    table_of_specs,
};
use std::cell::RefCell;

/// What a call said of memory.
#[derive(Clone, Copy, Debug, PartialEq, Eq)]
enum Answer {
    Granted,
    NoMemory,
    Other,
}

/// What a call answers where these requests are refused, how many it makes, and how many blocks it leaves.
fn refused(first: u64, last: u64, call: impl Fn() -> Answer) -> (Answer, u64, i64) {
    let (answer, asked) = refusing(first, last, call);
    (answer, asked.requests, asked.blocks)
}

/// A call finds memory exactly where none of its requests is refused, of which it makes at least this many. How many it makes.
fn finds_just_what_is_there(least: u64, call: impl Fn() -> Answer) -> u64 {
    let (answer, requests, held) = refused(0, 0, &call);
    assert_eq!((answer, held), (Answer::Granted, 0));
    assert!(least <= requests);
    for number in 1..=requests {
        assert_eq!(refused(number, number, &call), (Answer::NoMemory, number, 0));
        assert_eq!(refused(number, u64::MAX, &call), (Answer::NoMemory, number, 0));
    }
    assert_eq!(refused(requests + 1, u64::MAX, &call), (Answer::Granted, requests, 0));
    requests
}

/// The same, where it makes just this many.
fn finds_memory(requests: u64, call: impl Fn() -> Answer) {
    assert_eq!(finds_just_what_is_there(requests, call), requests);
}

fn answer<T, E: PartialEq>(made: Result<T, E>, no_memory: E) -> Answer {
    match made {
        Ok(_) => Answer::Granted,
        Err(error) if error == no_memory => Answer::NoMemory,
        Err(_) => Answer::Other,
    }
}

const SMALL: Limits = Limits { text: 128, cell: 64, entries: 8, depth: 3, types: true, parts: false };

#[test]
fn decoders_and_their_tables() {
    finds_memory(4, || answer(Decoder::new(SMALL), NewError::NoMemory));
    finds_memory(4, || answer(Decoder::lenient(SMALL), NewError::NoMemory));
    finds_memory(1, || answer(TypeTable::new(SMALL.entries), NoMemory));
}

/// A page up to its types, a list of ints.
const LIST_TYPE: &[u8; 34] = b"\x84\0\0\0\x08\0\0\0\x35\0\0\0\x02\0\0\0\x01\0\0\0\x01\0\x01k\0\x01t\0\x01c\0\x20\0\x09";

fn is_list(table: &TypeTable) -> bool {
    let nodes = [Node { kind: Kind::List, arity: 1, span: 2 }, Node { kind: Kind::Int, arity: 0, span: 1 }];
    table.len() == 2 && [table.node(0), table.node(1)] == nodes.map(Some)
}

/// The fifth request of a decoder that reads types is that of their copy. Where it is refused the types are as they were.
#[test]
fn copied_tables() {
    finds_memory(5, || {
        let Ok(mut decoder) = Decoder::new(SMALL) else { return Answer::NoMemory };
        let mut rest = &LIST_TYPE[..];
        while let Step::Event { used, .. } = decoder.next(rest) {
            rest = &rest[used..];
        }
        match decoder.table().clone_table() {
            Ok(copy) if is_list(&copy) && is_list(decoder.table()) => Answer::Granted,
            Err(NoMemory) if is_list(decoder.table()) => Answer::NoMemory,
            _ => Answer::Other,
        }
    });
}

#[test]
fn cores() {
    finds_memory(2, || answer(Client::new(10), SlotsOrMemory::NoMemory));
    finds_memory(1, || answer(Server::new(10), SlotsOrMemory::NoMemory));
    finds_memory(3, || answer(ClientOf::<u64>::new(10), SlotsOrMemory::NoMemory));
    finds_memory(2, || answer(ServerOf::<u64>::new(10), SlotsOrMemory::NoMemory));
}

fn byte() -> Box<TypeTree> {
    Box::new(TypeTree::Plain(Kind::Tinyint))
}

#[test]
fn boxes() {
    finds_memory(1, || match try_box([1_u8, 2, 3]) {
        Ok(boxed) if *boxed == [1, 2, 3] => Answer::Granted,
        Err(failed) if failed.0 == [1, 2, 3] => Answer::NoMemory,
        _ => Answer::Other,
    });
}

/// A tuple of each kind of value that owns memory.
fn tuple() -> TypeTree {
    let mut types = [Kind::Ascii, Kind::Blob, Kind::Decimal, Kind::Varchar, Kind::Varint].map(TypeTree::Plain).to_vec();
    types.push(TypeTree::Custom(String::new()));
    types.push(TypeTree::List(byte()));
    types.push(TypeTree::Set(byte()));
    types.push(TypeTree::Map(byte(), byte()));
    let fields = vec![(String::new(), TypeTree::Plain(Kind::Tinyint))];
    types.push(TypeTree::Udt { keyspace: String::new(), name: String::new(), fields });
    TypeTree::Tuple(types)
}

/// The bytes of a value of that tuple: of each field its length and its content, of a container its count and its items.
fn bytes() -> Vec<u8> {
    let one = [0, 0, 0, 1, 7];
    let list = [&[0, 0, 0, 1], &one[..]].concat();
    let map = [&[0, 0, 0, 1], &one[..], &one].concat();
    let contents: [&[u8]; 10] = [b"a", b"b", &[0, 0, 0, 1, 2], b"d", &[3], &[4], &list, &list, &map, &one];
    let mut fields = Vec::new();
    for content in contents {
        fields.extend((content.len() as u32).to_be_bytes());
        fields.extend(content);
    }
    [&(fields.len() as u32).to_be_bytes()[..], &fields].concat()
}

fn read(tree: &TypeTree, bytes: &[u8]) -> Answer {
    match read_value(&Limits::DEFAULT, Some(tree), bytes) {
        Ok(_) => Answer::Granted,
        Err(ReadError::NoMemory) => Answer::NoMemory,
        Err(_) => Answer::Other,
    }
}

/// A request at least for each of six scalars and five containers.
#[test]
fn values() {
    let (tree, bytes) = (tuple(), bytes());
    finds_just_what_is_there(11, || read(&tree, &bytes));
}

/// The value of that tuple, as it is bound and as a raw cell: one request, for just as many bytes as its content has.
fn bound(tree: &TypeTree, value: &Value) -> Answer {
    match bind_value(value, Some(tree)) {
        Ok(OwnedBound::Bytes(content)) if content.capacity() == content.len() => Answer::Granted,
        Err(BindError::NoMemory) => Answer::NoMemory,
        _ => Answer::Other,
    }
}

fn raw(tree: &TypeTree, value: &Value) -> Answer {
    match raw_value(value, Some(tree)) {
        Ok(Value::Leaf(Atom::Raw(content))) if content.capacity() == content.len() => Answer::Granted,
        Err(BindError::NoMemory) => Answer::NoMemory,
        _ => Answer::Other,
    }
}

#[test]
fn values_that_are_bound() {
    let tree = tuple();
    let value = read_value(&Limits::DEFAULT, Some(&tree), &bytes()).unwrap();
    for call in [bound, raw] {
        finds_just_what_is_there(1, || call(&tree, &value));
        assert_eq!(refused(0, 0, || call(&tree, &value)).1, 1);
    }
    for value in [Value::Null, Value::Empty] {
        let made = || bind_value(&value, Some(&tree)).is_ok() && raw_value(&value, Some(&tree)).is_ok();
        assert_eq!(refused(1, u64::MAX, || if made() { Answer::Granted } else { Answer::NoMemory }), (Answer::Granted, 0, 0));
    }
}

/// A table, a text, open options and the bytes of the options, of which the table alone stays.
#[test]
fn tables() {
    let types = [tuple(), TypeTree::Plain(Kind::Int)];
    let specs = [Spec { table: None, name: "c".to_string(), tree: tuple() }];
    for made in [&(|| table_of(&types)) as &dyn Fn() -> _, &|| table_of_specs(&specs)] {
        finds_just_what_is_there(4, || match made() {
            Ok(table) if table.capacity() == table.len() as usize => Answer::Granted,
            Err(TableError::NoMemory) => Answer::NoMemory,
            _ => Answer::Other,
        });
    }
}

#[test]
fn answers_to_other_versions() {
    finds_just_what_is_there(1, || match Frame::version_error(&[5, 0, 0, 7, 5, 0, 0, 0, 0]) {
        Ok(_) => Answer::Granted,
        Err(AllocError) => Answer::NoMemory,
    });
}

/// A reader of captures takes memory twice when it is made, and none while it reads packets in pieces.
#[test]
fn captures() {
    for (name, size) in [("driver.pcap", 1), ("driver.pcap", 100), ("driver.pcapng", 1), ("driver.pcapng", 100)] {
        let file = std::fs::read(format!("{}/tests/captures/{name}", env!("CARGO_MANIFEST_DIR"))).unwrap();
        finds_memory(2, || {
            let mut reader = match CaptureReader::new(CaptureLimits::DEFAULT) {
                Ok(reader) => reader,
                Err(error) => return answer::<(), _>(Err(error), NewReaderError::NoMemory),
            };
            for piece in file.chunks(size) {
                let mut used = 0;
                while let CaptureStep::Event { used: taken, .. } = reader.next(&piece[used..]) {
                    used += taken;
                }
            }
            if reader.finish() == (CaptureEnd::Whole { bytes: file.len() as u64 }) { Answer::Granted } else { Answer::Other }
        });
    }
}

/// A stream takes memory for what comes early alone, and is as before where it is refused.
#[test]
fn streams_of_captures() {
    let segment = |sequence, syn, payload| {
        let control = Control { sequence, syn, fin: false, rst: false, missing: 0 };
        StreamSegment { control, payload, time: Some(7) }
    };
    finds_just_what_is_there(2, || {
        let mut stream = Stream::new();
        let began = stream.take(&segment(9, true, b""), 1_000);
        let Ok(kept) = stream.take(&segment(13, false, b"de"), 1_000) else {
            return if stream.size() == 0 { Answer::NoMemory } else { Answer::Other };
        };
        let (next, held) = (stream.take(&segment(10, false, b"abc"), 1_000), stream.take(&segment(10, false, b"abc"), 1_000));
        let steps = [began, Ok(kept), next, held];
        let expected = [
            StreamStep::Began { syn: true },
            StreamStep::Kept,
            StreamStep::Payload { from: 0, count: 3 },
            StreamStep::Held { time: Some(7), begins: true },
        ];
        if steps == expected.map(Ok) && stream.held() == b"de" { Answer::Granted } else { Answer::Other }
    });
}

/// A batch takes memory when it is made, five times for a column of texts, and none while it takes rows, is full, is cleared and takes rows again.
#[test]
fn columns() {
    let limits = BatchLimits { columns: 2, rows: 9, bytes: 20, content: 4 };
    finds_just_what_is_there(10, || {
        let mut columns = match Columns::new(limits, &[Kind::Int, Kind::Varchar]) {
            Ok(columns) => columns,
            Err(MakeError::NoMemory) => return Answer::NoMemory,
            Err(_) => return Answer::Other,
        };
        let number = Event::Leaf { row: 0, column: 0, level: 0, scalar: Scalar::Int(7) };
        let text = Event::Leaf { row: 0, column: 1, level: 0, scalar: Scalar::Varchar("text") };
        for _ in 0..2 {
            while columns.take(&number) == Ok(()) {
                columns.take(&text).unwrap();
            }
            if (columns.rows(), columns.take(&number)) != (6, Err(TakeError::Full)) {
                return Answer::Other;
            }
            columns.clear();
        }
        Answer::Granted
    });
}

/// The events of a query with a text, under a header that says how long it is.
fn query() -> [Event<'static>; 5] {
    [
        Event::Frame(Header { response: false, flags: 0, stream: 0, opcode: Opcode::Query, length: 8 }),
        Event::Text { field: Field::Query, text: "x" },
        Event::Short { field: Field::Consistency, value: 1 },
        Event::Byte { field: Field::QueryFlags, value: 0 },
        Event::End { extra: 0 },
    ]
}

const BUILD: BuildLimits = BuildLimits { fields: 10, depth: 1, bytes: 10 };

/// A frame that is built, and one that is composed: what holds the events, and the text, which the frame has then; and the bytes.
#[test]
fn frames_of_events() {
    finds_just_what_is_there(2, || {
        let mut builder = FrameBuilder::new(BUILD);
        match query().iter().try_fold(None, |_, event| builder.take(event)) {
            Ok(Some(_)) => Answer::Granted,
            Err(BuildError::NoMemory) => Answer::NoMemory,
            _ => Answer::Other,
        }
    });
    finds_just_what_is_there(3, || {
        let mut composer = Composer::new(BUILD);
        match query().iter().try_for_each(|event| composer.take(event)).and_then(|()| composer.write()) {
            Ok(bytes) if bytes.len() == 17 => Answer::Granted,
            Err(BuildError::NoMemory) => Answer::NoMemory,
            _ => Answer::Other,
        }
    });
}

/// A frame behind other bytes, of which the first 512 that wait, and each longer content, ask for memory where there is too little. Where it
/// is refused the bytes are as they were, and where there is room for the frame no memory is asked for.
#[test]
fn frames_appended() {
    let texts: Vec<String> = [200, 2000, 20000].map(|len| "x".repeat(len)).into();
    let frame = Frame::plain(0, Message::Register(texts));
    let appended = |bytes: &mut Vec<u8>| match append(&frame, bytes) {
        Ok(len) if bytes.len() == 3 + len as usize => Answer::Granted,
        Err(AppendError::NoMemory) if bytes[..] == [1, 2, 3] => Answer::NoMemory,
        _ => Answer::Other,
    };
    finds_just_what_is_there(4, || {
        let mut bytes = Vec::new();
        match bytes.try_reserve_exact(3) {
            Ok(()) => {
                bytes.extend([1, 2, 3]);
                appended(&mut bytes)
            }
            Err(_) => Answer::NoMemory,
        }
    });
    let room = RefCell::new(Vec::with_capacity(3 + 22217));
    room.borrow_mut().extend([1, 2, 3]);
    assert_eq!(refused(1, u64::MAX, || appended(&mut room.borrow_mut())), (Answer::Granted, 0, 0));
}

/// The cell of a page, of its events: what holds them, the text, and the bytes.
#[test]
fn cells_of_events() {
    let meta = Metadata { flags: 4, columns: 1, paging: None, table: None, specs: None };
    let frame = Frame::plain(0, Message::Rows(Rows { meta, rows: 1, cells: Vec::new() }));
    let place = PageProgress::start(&frame, 5).unwrap();
    finds_just_what_is_there(3, || {
        let mut cells = PageCells::new(&frame, place, CellLimits { events: 1, bytes: 1 });
        let taken = cells.take(&Event::Leaf { row: 0, column: 0, level: 0, scalar: Scalar::Raw(b"x") });
        match taken.and_then(|()| cells.finish()) {
            Ok(written) if written.bytes.len() == 5 => Answer::Granted,
            Err(PageCellError::Cell(CellError::NoMemory)) => Answer::NoMemory,
            _ => Answer::Other,
        }
    });
}
