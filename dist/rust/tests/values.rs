//! Values of cells whose bytes were changed at random: what `read_value` takes is written and read again as the same value, alone and as the
//! cell of a page, and what it refuses the decoder refuses at the same byte of a page, also of one without metadata whose types are given to
//! it in a table that is made of them. CQLP_STREAMS is how many values there are, 3,000 where it is not set.
#![forbid(unsafe_code)]

use crate::common::{Numbers, count};
use cqlp::frame::{
    Frame, Message, Metadata, PageWriter, ReadError, Rows, Spec, TypeTree, Value, encode, fits, read_value, value_size, write_value,
};
use cqlp::text::render_rows;
use cqlp::{Decoder, Finish, Kind, Limits, Node, OfStd, Outcome, Reason, Refusal, TypeTable, table_of, table_of_specs};
use std::slice::from_ref;

const PLAIN: [Kind; 19] = [
    Kind::Ascii,
    Kind::Bigint,
    Kind::Blob,
    Kind::Boolean,
    Kind::Counter,
    Kind::Decimal,
    Kind::Double,
    Kind::Float,
    Kind::Int,
    Kind::Timestamp,
    Kind::Uuid,
    Kind::Varchar,
    Kind::Varint,
    Kind::Timeuuid,
    Kind::Inet,
    Kind::Date,
    Kind::Time,
    Kind::Smallint,
    Kind::Tinyint,
];

/// A type of at most this many levels around a plain one.
fn tree(numbers: &mut Numbers, levels: usize) -> TypeTree {
    let boxed = |numbers: &mut Numbers| Box::new(tree(numbers, levels - 1));
    match if levels == 0 { 0 } else { numbers.below(7) } {
        1 => TypeTree::Custom("org.example.Type".to_string()),
        2 => TypeTree::List(boxed(numbers)),
        3 => TypeTree::Set(boxed(numbers)),
        4 => TypeTree::Map(boxed(numbers), boxed(numbers)),
        5 => TypeTree::Tuple((0..1 + numbers.below(3)).map(|_| tree(numbers, levels - 1)).collect::<Vec<_>>()),
        6 => TypeTree::Udt {
            keyspace: "shop".to_string(),
            name: "item".to_string(),
            fields: (0..1 + numbers.below(3)).map(|i| (format!("f{i}"), tree(numbers, levels - 1))).collect::<Vec<_>>(),
        },
        _ => TypeTree::Plain(numbers.one_of(&PLAIN)),
    }
}

/// The bytes of some value of a type, its length before it.
fn cell(numbers: &mut Numbers, of: &TypeTree) -> Vec<u8> {
    let content = match numbers.below(12) {
        0 => return vec![0xff; 4],
        1 => Vec::new(),
        _ => content(numbers, of),
    };
    [&(content.len() as u32).to_be_bytes(), &content[..]].concat()
}

fn content(numbers: &mut Numbers, of: &TypeTree) -> Vec<u8> {
    let count = numbers.below(4);
    let counted = |items: Vec<Vec<u8>>| [&(count as u32).to_be_bytes(), &items.concat()[..]].concat();
    match of {
        TypeTree::List(item) | TypeTree::Set(item) => counted((0..count).map(|_| cell(numbers, item)).collect()),
        TypeTree::Map(key, value) => counted((0..2 * count).map(|i| cell(numbers, if i % 2 == 0 { key } else { value })).collect()),
        TypeTree::Tuple(fields) => fields.iter().flat_map(|field| cell(numbers, field)).collect(),
        TypeTree::Udt { fields, .. } => fields.iter().flat_map(|(_, field)| cell(numbers, field)).collect(),
        TypeTree::Custom(_) => vec![7; 1 + numbers.below(20)],
        TypeTree::Plain(kind) => scalar(numbers, *kind),
    }
}

/// Bytes for a scalar, of a length that its kind may have.
fn scalar(numbers: &mut Numbers, kind: Kind) -> Vec<u8> {
    let len = match kind {
        Kind::Boolean | Kind::Tinyint => 1,
        Kind::Smallint => 2,
        Kind::Int | Kind::Float | Kind::Date => 4,
        Kind::Bigint | Kind::Counter | Kind::Double | Kind::Timestamp | Kind::Time => 8,
        Kind::Uuid | Kind::Timeuuid => 16,
        Kind::Inet => numbers.one_of(&[4, 16]),
        Kind::Decimal => 5 + numbers.below(20),
        _ => 1 + numbers.below(40),
    };
    let mut bytes: Vec<u8> = (0..len).map(|_| numbers.below(0x80) as u8).collect();
    match kind {
        Kind::Time => bytes[..2].fill(0),
        Kind::Timeuuid => bytes[6] = 0x10,
        _ => {}
    }
    bytes
}

/// Changes some of the bytes, or cuts them after the length.
fn change(numbers: &mut Numbers, bytes: &mut Vec<u8>) {
    for _ in 0..numbers.one_of(&[0, 0, 1, 1, 2]) {
        let (place, any) = (numbers.below(bytes.len()), numbers.below(256) as u8);
        bytes[place] = numbers.one_of(&[0, 1, 2, 0x7f, 0x80, 0xff, any]);
    }
    if numbers.below(20) == 0 {
        bytes.truncate(4 + numbers.below(bytes.len() - 3));
    }
}

/// A page of one row and one column of this type, still without its cell.
fn page(tree: TypeTree) -> Frame {
    let text = |text: &str| text.to_string();
    let column = Spec { table: None, name: text("c"), tree };
    let table = Some((text("k"), text("t")));
    with_metadata(Metadata { flags: 1, columns: 1, paging: None, table, specs: Some(vec![column]) })
}

/// The same with the flag No_metadata.
fn bare_page() -> Frame {
    with_metadata(Metadata { flags: 4, columns: 1, paging: None, table: None, specs: None })
}

fn with_metadata(meta: Metadata) -> Frame {
    Frame::plain(7, Message::Rows(Rows { meta, rows: 1, cells: Vec::new() }))
}

fn rows(page: &mut Frame) -> &mut Rows {
    match &mut page.message {
        Message::Rows(rows) => rows,
        _ => unreachable!(),
    }
}

fn column(page: &mut Frame) -> &TypeTree {
    &rows(page).meta.specs.as_ref().unwrap()[0].tree
}

/// The bytes of a page with these bytes for its cell, and how many are before them.
fn with_bytes(page: &Frame, cell: &[u8]) -> (Vec<u8>, u64) {
    let mut head = OfStd::new(Vec::new());
    PageWriter::begin(page, cell.len() as u32, &mut head).unwrap();
    let head = head.into_inner();
    ([&head[..], cell].concat(), head.len() as u64)
}

/// How a decoder that was given these types ends over a page, the text of the row, and the types of the metadata.
fn read_page(stream: &[u8], given: Option<TypeTable>) -> (Finish, Vec<u8>, TypeTable) {
    let mut decoder = Decoder::new(Limits::DEFAULT).unwrap();
    if let Some(table) = given {
        assert!(matches!(decoder.give(table), Ok(None)));
    }
    let (outcome, text) = render_rows(&mut decoder, &mut OfStd::new(stream), OfStd::new(Vec::new()), u64::MAX);
    let Outcome::Finished(finish) = outcome else { panic!("{outcome:?}") };
    let row = text.inner.split(|byte| *byte == b'\n').rev().nth(1).unwrap_or_default().to_vec();
    (finish, row, decoder.table().clone_table().unwrap())
}

fn nodes(table: &TypeTable) -> Vec<Node> {
    (0..table.len()).map(|i| table.node(i).unwrap()).collect()
}

/// How a reading ends where it refuses this, or nothing, in a cell after this many bytes of a page.
fn ending(refused: Option<Refusal>, head: u64, cell: &[u8]) -> Finish {
    match refused {
        Some(Refusal { at, why }) => Finish::Refused(Refusal { at: head + at, why }),
        None => Finish::Whole { bytes: head + cell.len() as u64 },
    }
}

/// Sees that a value of this many bytes is written as itself, alone and in its page, whose bytes come back.
fn write_again(value: Value, page: &mut Frame, len: usize) -> Vec<u8> {
    assert!(fits(&value, Some(column(page))));
    assert_eq!(value_size(&value), len as u64);
    let mut alone = OfStd::new(Vec::new());
    assert_eq!(write_value(&value, Some(column(page)), &mut alone), Ok(len as u32));
    assert_eq!(read_value(&Limits::DEFAULT, Some(column(page)), &alone.into_inner()).as_ref(), Ok(&value));

    let mut by_cell = OfStd::new(Vec::new());
    let mut writer = PageWriter::begin(page, len as u32, &mut by_cell).unwrap();
    writer.cell(&value, &mut by_cell).unwrap();
    writer.finish().unwrap();
    let mut whole = OfStd::new(Vec::new());
    rows(page).cells = vec![value];
    encode(page, &mut whole).unwrap();
    let whole = whole.into_inner();
    assert_eq!(by_cell.into_inner(), whole);
    whole
}

#[test]
fn mutated_values() {
    let (mut numbers, mut read) = (Numbers::new(), 0);
    for case in 0..count() {
        let mut page = page(tree(&mut numbers, 3));
        let mut bytes = cell(&mut numbers, column(&mut page));
        change(&mut numbers, &mut bytes);
        let value = read_value(&Limits::DEFAULT, Some(column(&mut page)), &bytes);
        let about = format!("case {case}: {bytes:02x?} {value:?}");

        let (stream, head) = with_bytes(&page, &bytes);
        let (finish, row, table) = read_page(&stream, None);
        let refused = match value {
            // The bytes after a cell are no fault of a frame.
            Err(ReadError::Refused(Refusal { why: Reason::ExtraInValue, .. })) if finish == ending(None, head, &bytes) => None,
            Err(ReadError::Refused(refusal)) => Some(refusal),
            Err(error) => panic!("{error:?} {about}"),
            Ok(value) => {
                read += 1;
                let again = read_page(&write_again(value, &mut page, bytes.len()), None);
                assert_eq!((again.0, &again.1), (finish, &row), "{about}");
                None
            }
        };
        assert_eq!(finish, ending(refused, head, &bytes), "{about}");

        let (stream, head) = with_bytes(&bare_page(), &bytes);
        let given = table_of(from_ref(column(&mut page))).unwrap();
        assert_eq!(nodes(&given), nodes(&table), "{about}");
        let given = table_of_specs(rows(&mut page).meta.specs.as_ref().unwrap()).unwrap();
        assert_eq!(nodes(&given), nodes(&table), "{about}");
        let by_given = read_page(&stream, Some(given));
        assert_eq!((by_given.0, by_given.1), (ending(refused, head, &bytes), row), "{about}");
    }
    assert!(read > count() / 4, "{read}");
}

/// The numbers that have names are those of the calls that take numbers, and addresses are std's.
#[test]
fn names_and_addresses() {
    use cqlp::capture::Endpoint;
    use cqlp::{Address, Consistency, ErrorCode, ResultKind, error_code, result_kind};
    use std::net::{IpAddr, SocketAddr};

    for number in 0..=0x2600 {
        let Ok(code) = ErrorCode::try_from(number) else { continue };
        assert_eq!((u32::from(code), code.name().parse()), (number, Ok(code)));
    }
    assert_eq!(u32::from(ErrorCode::Unprepared), error_code::UNPREPARED);
    assert_eq!(u32::from(ResultKind::SchemaChange), result_kind::SCHEMA_CHANGE);
    let levels = (0..11).map(|number| Consistency::try_from(number).unwrap().name().to_lowercase().parse::<Consistency>());
    assert!(levels.zip(0..).all(|(level, number)| level.map(u16::from) == Ok(number)));
    for text in ["192.0.2.7", "2001:db8::1"] {
        let ip: IpAddr = text.parse().unwrap();
        assert_eq!(IpAddr::from(Address::from(ip)), ip);
        let socket = SocketAddr::new(ip, 9042);
        assert_eq!(SocketAddr::from(Endpoint::from(socket)), socket);
    }
}
