//! Headers and opcodes, the kinds of types by their ids, and what a server answers to a request of another version.
#![forbid(unsafe_code)]

use cqlp::frame::{Frame, Message, Metadata, Rows, Spec, TypeTree, encode};
use cqlp::{Decoder, Finish, Header, Kind, Limits, OfStd, Opcode, Reason, Refusal, Step};

fn read(bytes: &[u8; 9]) -> Result<Header, Refusal> {
    Header::from_bytes(bytes)
}

#[test]
fn headers_are_read_and_written() {
    let header = |response, flags, stream, opcode, length| Ok(Header { response, flags, stream, opcode, length });
    let refused = |why, at| Err(Refusal { at, why });
    let rows = [
        ([0x83, 1, 0, 0, 4, 255, 255, 255, 255], refused(Reason::BadVersion, 0)),
        ([0x84, 1, 0, 0, 4, 255, 255, 255, 255], refused(Reason::Compressed, 1)),
        ([0x84, 0, 0, 0, 4, 255, 255, 255, 255], refused(Reason::BadOpcode, 4)),
        ([0x84, 0, 0, 0, 17, 0, 0, 0, 0], refused(Reason::BadOpcode, 4)),
        ([0x84, 0, 0, 0, 7, 255, 255, 255, 255], refused(Reason::BadDirection, 4)),
        ([0x04, 0, 0, 0, 2, 255, 255, 255, 255], refused(Reason::BadDirection, 4)),
        ([0x84, 0, 0, 0, 2, 255, 255, 255, 255], refused(Reason::BadLength, 5)),
        ([0x84, 0, 0, 0, 8, 16, 0, 0, 1], refused(Reason::BadLength, 5)),
        ([0x00, 0, 0, 0, 5, 0, 0, 0, 0], refused(Reason::BadVersion, 0)),
        ([4, 0, 0, 0, 5, 0, 0, 0, 0], header(false, 0, 0, Opcode::Options, 0)),
        ([0x84, 0, 0, 7, 6, 0, 0, 0, 24], header(true, 0, 7, Opcode::Supported, 24)),
        ([0x84, 0, 255, 255, 12, 0, 0, 0, 28], header(true, 0, -1, Opcode::Event, 28)),
        ([0x84, 0x0E, 0, 1, 8, 0, 0, 0, 35], header(true, 14, 1, Opcode::Result, 35)),
        ([0x84, 0xF0, 128, 0, 8, 16, 0, 0, 0], header(true, 240, -32_768, Opcode::Result, 268_435_456)),
    ];
    for (bytes, said) in rows {
        assert_eq!(read(&bytes), said, "{bytes:x?}");
        if let Ok(header) = said {
            assert!(header.lawful());
            assert_eq!(header.to_bytes(), Some(bytes));
        }
    }
}

#[test]
fn some_headers_are_not_lawful() {
    let lawful = Header { response: false, flags: 0, stream: 0, opcode: Opcode::Query, length: 268_435_456 };
    assert!(lawful.lawful());
    for header in [Header { flags: 3, ..lawful }, Header { response: true, ..lawful }, Header { length: 268_435_457, ..lawful }] {
        assert!(!header.lawful());
        assert_eq!(header.to_bytes(), None);
    }
}

#[test]
fn each_opcode_has_its_number() {
    let known: Vec<u8> = (0..=255).filter(|number| Opcode::from_number(*number).is_some()).collect();
    assert_eq!(known, [0, 1, 2, 3, 5, 6, 7, 8, 9, 10, 11, 12, 13, 14, 15, 16]);
    for number in known {
        let opcode = Opcode::from_number(number).unwrap();
        assert_eq!(opcode.number(), number);
        assert_eq!(opcode.is_response(), [0, 2, 3, 6, 8, 12, 14, 16].contains(&number), "{opcode:?}");
    }
}

/// The bytes of a frame.
fn written(frame: &Frame) -> Vec<u8> {
    let mut target = OfStd::new(Vec::new());
    encode(frame, &mut target).unwrap();
    target.into_inner()
}

fn text() -> String {
    String::new()
}

fn int() -> Box<TypeTree> {
    Box::new(TypeTree::Plain(Kind::Int))
}

/// A type of this kind.
fn tree(kind: Kind) -> TypeTree {
    match kind {
        Kind::Custom => TypeTree::Custom(text()),
        Kind::List => TypeTree::List(int()),
        Kind::Set => TypeTree::Set(int()),
        Kind::Map => TypeTree::Map(int(), int()),
        Kind::Udt => TypeTree::Udt { keyspace: text(), name: text(), fields: Vec::new() },
        Kind::Tuple => TypeTree::Tuple(Vec::new()),
        _ => TypeTree::Plain(kind),
    }
}

/// A page of no rows and a column of this kind.
fn page(kind: Kind) -> Frame {
    let specs = vec![Spec { table: None, name: text(), tree: tree(kind) }];
    let meta = Metadata { flags: 1, columns: 1, paging: None, table: Some((text(), text())), specs: Some(specs) };
    let message = Message::Rows(Rows { meta, rows: 0, cells: Vec::new() });
    Frame { flags: 0, stream: 0, tracing: None, warnings: None, payload: None, message }
}

/// Where the option of the page's column begins: after the header, the kind of result, the flags, the count and three texts without letters.
const OPTION: usize = 9 + 4 + 4 + 4 + 3 * 2;

#[test]
fn a_kind_is_written_as_the_id_that_it_is_read_from() {
    let known: Vec<u16> = (0..64).filter(|id| Kind::from_id(*id).is_some()).collect();
    assert_eq!(known, [0, 1, 2, 3, 4, 5, 6, 7, 8, 9, 11, 12, 13, 14, 15, 16, 17, 18, 19, 20, 32, 33, 34, 48, 49]);
    for id in known {
        let bytes = written(&page(Kind::from_id(id).unwrap()));
        assert_eq!(bytes[OPTION..OPTION + 2], id.to_be_bytes());
    }
}

/// How many events these bytes have, and how they end.
fn events(bytes: &[u8]) -> (usize, Finish) {
    let mut decoder = Decoder::new(Limits::DEFAULT).unwrap();
    let (mut at, mut events) = (0, 0);
    while let Step::Event { used, .. } = decoder.next(&bytes[at..]) {
        at += used;
        events += 1;
    }
    (events, decoder.finish())
}

/// The header of a request; and what is written of its answer: the header with the stream id, the code and the length of the text, and the text.
#[test]
fn other_versions_are_answered() {
    let rows: [([u8; 9], [u8; 15], u8); 6] = [
        ([1, 0, 9, 5, 0, 0, 0, 0, 0], [0x84, 0, 0, 9, 0, 0, 0, 0, 0x6a, 0, 0, 0, 0x0a, 0, 0x64], 1),
        ([2, 0, 0xFF, 5, 0, 0, 0, 0, 9], [0x84, 0, 0xff, 0xff, 0, 0, 0, 0, 0x6a, 0, 0, 0, 0x0a, 0, 0x64], 2),
        ([3, 0, 1, 0, 5, 0, 0, 0, 0], [0x84, 0, 1, 0, 0, 0, 0, 0, 0x6a, 0, 0, 0, 0x0a, 0, 0x64], 3),
        ([5, 2, 0x7F, 0xFF, 1, 0, 0, 0, 9], [0x84, 0, 0x7f, 0xff, 0, 0, 0, 0, 0x6a, 0, 0, 0, 0x0a, 0, 0x64], 5),
        ([0xC2, 0, 0xFF, 0xFE, 5, 0, 0, 0, 0], [0x84, 0, 0xff, 0xfe, 0, 0, 0, 0, 0x6b, 0, 0, 0, 0x0a, 0, 0x65], 66),
        ([0, 0, 0, 1, 5, 0, 0, 0, 0], [0x84, 0, 0, 1, 0, 0, 0, 0, 0x6a, 0, 0, 0, 0x0a, 0, 0x64], 0),
    ];
    for (header, front, version) in rows {
        let bytes = written(&Frame::version_error(&header).unwrap());
        let text = format!("Invalid or unsupported protocol version ({version}); the lowest supported version is 4 and the greatest is 4");
        assert_eq!(bytes, [&front, text.as_bytes()].concat(), "{header:x?}");
        assert_eq!(events(&bytes), (4, Finish::Whole { bytes: bytes.len() as u64 }), "{header:x?}");
    }
}
