//! Rows as Rust types: each type there and back, in pieces and whole, with metadata and without, and the text of each error.
#![forbid(unsafe_code)]

use cqlp::cells::CellLimits;
use cqlp::frame::{Atom, Frame, Message, Metadata, Rows, Spec, TypeTree, Value, encode};
use cqlp::rows::*;
use cqlp::{Decoder, Kind, Limits, OfStd, SinkFault, TableError, bind, row, table_of_specs};
use std::collections::{BTreeMap, BTreeSet, HashMap, HashSet};
use std::fmt::Debug;
use std::net::IpAddr;

/// The flags of metadata: one table for all columns; no columns.
const ONE_TABLE: i32 = 1;
const NO_METADATA: i32 = 4;

/// An ERROR of the code 2000.
const ERROR: &[u8] = b"\x84\0\0\0\0\0\0\0\x09\0\0\x20\0\0\x03BAD";

const ALL: CellLimits = CellLimits { events: 1_000, bytes: 1_000 };

fn plain(kind: Kind) -> TypeTree {
    TypeTree::Plain(kind)
}

fn boxed(tree: TypeTree) -> Box<TypeTree> {
    Box::new(tree)
}

fn list(inner: TypeTree) -> TypeTree {
    TypeTree::List(boxed(inner))
}

fn set(inner: TypeTree) -> TypeTree {
    TypeTree::Set(boxed(inner))
}

fn map(key: TypeTree, value: TypeTree) -> TypeTree {
    TypeTree::Map(boxed(key), boxed(value))
}

fn tuple(types: Vec<TypeTree>) -> TypeTree {
    TypeTree::Tuple(types)
}

fn udt(types: Vec<TypeTree>) -> TypeTree {
    let fields: Vec<_> = types.into_iter().map(|tree| ("f".to_string(), tree)).collect();
    TypeTree::Udt { keyspace: "k".to_string(), name: "t".to_string(), fields }
}

fn spec(name: &str, tree: TypeTree) -> Spec {
    Spec { table: None, name: name.to_string(), tree }
}

fn written(message: Message) -> Vec<u8> {
    let mut target = OfStd::new(Vec::new());
    encode(&Frame::plain(7, message), &mut target).unwrap();
    target.into_inner()
}

/// A page with these columns and cells.
fn page(specs: Vec<Spec>, cells: Vec<Value>) -> Vec<u8> {
    let (columns, rows) = (specs.len() as u32, (cells.len() / specs.len()) as u32);
    let table = Some(("k".to_string(), "t".to_string()));
    let meta = Metadata { flags: ONE_TABLE, columns, paging: None, table, specs: Some(specs) };
    written(Message::Rows(Rows { meta, rows, cells }))
}

/// The same page without its metadata.
fn bare_page(specs: &[Spec], cells: &[Value]) -> Vec<u8> {
    let meta = Metadata { flags: NO_METADATA, columns: specs.len() as u32, paging: None, table: None, specs: None };
    let raw = |(i, cell): (usize, &Value)| cqlp::frame::raw_value(cell, Some(&specs[i % specs.len()].tree)).unwrap();
    let cells: Vec<_> = cells.iter().enumerate().map(raw).collect();
    written(Message::Rows(Rows { meta, rows: (cells.len() / specs.len()) as u32, cells }))
}

/// The rows of a frame in pieces of this many bytes; its columns are given where it does not have them.
fn in_pieces<T: for<'a> FromRow<'a>>(frame: &[u8], size: usize, given: Option<&[Spec]>) -> Result<Vec<T>, RowError> {
    let mut rows = Vec::new();
    let mut decoder = Decoder::new(Limits::DEFAULT).unwrap();
    let mut sink = RowSink::with_limits(ALL, |row| {
        rows.push(row);
        Ok(())
    });
    if let Some(specs) = given {
        sink.name_columns(specs)?;
        decoder.give(table_of_specs(specs).unwrap()).unwrap();
    }
    frame.chunks(size).try_for_each(|piece| sink.feed(&mut decoder, piece))?;
    assert!(sink.head().ended);
    Ok(rows)
}

fn whole<'a, T: FromRow<'a>>(frame: &'a [u8]) -> Result<Vec<T>, RowError> {
    page_rows(frame)?.collect()
}

/// The rows are these, read in each way.
fn same<T: for<'a> FromRow<'a> + PartialEq + Debug>(specs: Vec<Spec>, cells: Vec<Value>, wanted: &[T]) {
    let bare = bare_page(&specs, &cells);
    let mut reader = PageReader::new(Limits::DEFAULT).unwrap();
    reader.give(&specs).unwrap();
    for size in [1, 7, 4096] {
        assert_eq!(in_pieces::<T>(&bare, size, Some(&specs)).unwrap(), wanted);
    }
    for _ in 0..2 {
        assert_eq!(reader.rows(&bare).unwrap().collect::<Result<Vec<T>, _>>().unwrap(), wanted);
    }
    let frame = page(specs, cells);
    for size in [1, 7, 4096] {
        assert_eq!(in_pieces::<T>(&frame, size, None).unwrap(), wanted);
    }
    assert_eq!(reader.rows(&frame).unwrap().collect::<Result<Vec<T>, _>>().unwrap(), wanted);
    assert_eq!(whole::<T>(&frame).unwrap(), wanted);
    let header = cqlp::Header::from_bytes(frame[..9].try_into().unwrap()).unwrap();
    assert_eq!(reader.body_rows(&header, &frame[9..]).unwrap().collect::<Result<Vec<T>, _>>().unwrap(), wanted);
}

/// These rows, written as cells of these types, are read again.
fn there_and_back<T: ToCell + for<'a> FromRow<'a> + PartialEq + Debug>(types: fn() -> Vec<TypeTree>, rows: &[T]) {
    let cells = |row: &T| match row.to_cell(&tuple(types())).unwrap() {
        Value::Tuple(cells) => cells,
        other => panic!("{other:?}"),
    };
    let names = types().into_iter().enumerate().map(|(i, tree)| spec(&format!("c{i}"), tree)).collect();
    same(names, rows.iter().flat_map(cells).collect(), rows);
}

#[test]
fn numbers_there_and_back() {
    let types = || {
        let kinds = [Kind::Tinyint, Kind::Smallint, Kind::Int, Kind::Bigint, Kind::Float, Kind::Double, Kind::Boolean];
        let more = [Kind::Counter, Kind::Date, Kind::Time, Kind::Timestamp, Kind::Inet];
        kinds.into_iter().chain(more).map(plain).collect()
    };
    let ip = |text: &str| text.parse::<IpAddr>().unwrap();
    let (day, last) = (Date::from_days(-1).unwrap(), Time(86_399_999_999_999));
    let least = (i8::MIN, i16::MIN, i32::MIN, i64::MIN, 0.5f32, f64::MAX, true, Counter(-1), day, Time(0), Timestamp(-1), ip("127.0.0.1"));
    let most = (i8::MAX, i16::MAX, i32::MAX, i64::MAX, f32::MIN, -0.5f64, false, Counter(1), Date(u32::MAX), last, Timestamp(1), ip("::1"));
    there_and_back(types, &[least, most]);
    assert_eq!((Date(0).days(), Date::from_days(1 << 31)), (-(1 << 31), None));
}

#[test]
fn texts_and_bytes_there_and_back() {
    let types = || {
        let kinds = [Kind::Ascii, Kind::Varchar, Kind::Blob, Kind::Blob, Kind::Uuid, Kind::Uuid, Kind::Timeuuid, Kind::Timeuuid];
        let custom = TypeTree::Custom("x.Y".to_string());
        kinds.into_iter().chain([Kind::Varint, Kind::Decimal, Kind::Int]).map(plain).chain([custom]).collect()
    };
    let (uuid, time) = (*b"0123456\x17abcdefgh", *b"012345\x17\x17abcdefgh");
    let rows = [0i128, 1, -1, 127, 128, -128, -129, i128::MAX, i128::MIN].map(|number| {
        let decimal = Decimal { scale: -7, unscaled: Varint::from(number) };
        assert_eq!(decimal.unscaled.to_i128(), Some(number));
        let text = "x".repeat(number.clamp(0, 5_000) as usize);
        let (bytes, some) = (text.clone().into_bytes(), (number > 0).then_some(7));
        let varint = Varint::from(number);
        (text.clone(), text, bytes.clone(), [1u8, 2, 3], uuid, Uuid(uuid), Uuid(time), Timeuuid(time), varint, decimal, some, bytes)
    });
    there_and_back(types, &rows);
    assert_eq!(Varint([0; 20].into()).to_i128(), Some(0));
    assert_eq!(Varint([1; 17].into()).to_i128(), None);
    assert_eq!(Varint([&[0u8][..], &[0xff; 16]].concat()).to_i128(), None);
    assert_eq!(Uuid(time).to_string(), "30313233-3435-1717-6162-636465666768");
}

#[test]
fn collections_there_and_back() {
    let types = || {
        let texts = || set(plain(Kind::Varchar));
        let pairs = || map(plain(Kind::Varchar), plain(Kind::Bigint));
        let fields = || vec![plain(Kind::Int), plain(Kind::Varchar)];
        let nested = map(plain(Kind::Int), list(tuple(vec![plain(Kind::Uuid), set(plain(Kind::Ascii))])));
        let ints = || list(plain(Kind::Int));
        vec![ints(), ints(), texts(), texts(), texts(), pairs(), pairs(), tuple(fields()), udt(fields()), nested]
    };
    let words = || vec!["a".to_string(), String::new(), "c".repeat(300)];
    let pairs = || words().into_iter().zip([1i64, 2, 3]);
    let inner = vec![(Uuid([7; 16]), vec!["x".to_string(), "y".to_string()]), (Uuid([8; 16]), vec![])];
    let full = (
        (0..400).collect::<Vec<i32>>(),
        Some(vec![Some(1i32), None]),
        words(),
        words().into_iter().collect::<BTreeSet<_>>(),
        words().into_iter().collect::<HashSet<_>>(),
        pairs().collect::<BTreeMap<_, _>>(),
        pairs().collect::<HashMap<_, _>>(),
        (1i32, Some("a".to_string())),
        (2i32, None::<String>),
        BTreeMap::from([(1i32, inner), (2, vec![])]),
    );
    let none = (vec![], None, vec![], [].into(), [].into(), [].into(), [].into(), (3, None), (4, Some(String::new())), [].into());
    there_and_back(types, &[full, none]);
}

/// Any type, as the package's own value; Value is not Clone.
#[test]
fn values_there_and_back() {
    let leaf = |number| Value::Leaf(Atom::Int(number));
    let decimal = || Value::Leaf(Atom::Decimal { scale: 1, unscaled: vec![5] });
    let rows = || vec![(Value::List(vec![leaf(1), Value::Null, Value::Empty]), decimal()), (Value::Null, Value::Empty)];
    let types = || vec![spec("a", list(plain(Kind::Int))), spec("b", plain(Kind::Decimal))];
    same(types(), rows().into_iter().flat_map(|(a, b)| [a, b]).collect(), &rows());
    let maps = || vec![(Value::Map(vec![(leaf(1), Value::Tuple(vec![leaf(2)]))]), Value::Udt(vec![leaf(3)]))];
    let (tuples, udts) = (tuple(vec![plain(Kind::Int), plain(Kind::Int)]), udt(vec![plain(Kind::Int)]));
    same(vec![spec("m", map(plain(Kind::Int), tuples)), spec("u", udts)], maps().into_iter().flat_map(|(a, b)| [a, b]).collect(), &maps());
}

row! {
    /// A user.
    #[derive(Debug, Clone, PartialEq)]
    pub struct User {
        pub id: i32,
        name: String,
        /// Under another name.
        years: Option<i32> = "age",
    }
}

row! {
    #[derive(Debug, PartialEq)]
    struct Lent<'a> { name: &'a str, photo: Option<&'a [u8]>, tags: Vec<&'a str> }
}

fn user_specs() -> Vec<Spec> {
    let photo = spec("photo", plain(Kind::Blob));
    vec![
        spec("age", plain(Kind::Int)),
        spec("tags", set(plain(Kind::Varchar))),
        spec("name", plain(Kind::Varchar)),
        photo,
        spec("id", plain(Kind::Int)),
    ]
}

fn varchar(text: &str) -> Value {
    Value::Leaf(Atom::Varchar(text.to_string()))
}

/// Cells of 150 users, a few more than are made at a time.
fn user_cells() -> (Vec<Value>, Vec<User>) {
    let user = |id| User { id, name: format!("user {id}"), years: (id % 3 != 0).then_some(id) };
    let users: Vec<_> = (0..150).map(user).collect();
    let tags = || Value::Set(vec![varchar("x"), Value::Empty]);
    let cells = |user: &User| {
        let years = user.years.map_or(Value::Null, Value::from);
        [years, tags(), varchar(&user.name), Value::Leaf(Atom::Blob(vec![7, user.id as u8])), Value::from(user.id)]
    };
    (users.iter().flat_map(cells).collect(), users)
}

#[test]
fn structs_by_the_names_of_columns() {
    let (cells, users) = user_cells();
    same(user_specs(), cells, &users);
}

#[test]
fn lent_from_a_page() {
    let frame = page(user_specs(), user_cells().0);
    for (id, row) in page_rows::<Lent>(&frame).unwrap().enumerate() {
        let (name, photo) = (format!("user {id}"), [7, id as u8]);
        assert_eq!(row.unwrap(), Lent { name: &name, photo: Some(&photo), tags: vec!["x", ""] });
    }
}

/// Two pages and an ERROR between them, in one stream.
#[test]
fn frames_after_one_another() {
    let (cells, users) = user_cells();
    let stream = [page(user_specs(), cells), ERROR.to_vec(), page(user_specs(), user_cells().0)].concat();
    for size in [1, 7, 4096] {
        assert_eq!(in_pieces::<User>(&stream, size, None).unwrap(), [&users[..], &users[..]].concat());
    }
}

fn int_page(cells: Vec<Value>) -> Vec<u8> {
    page(vec![spec("c", plain(Kind::Int))], cells)
}

/// The text of the error that a frame is read with, in pieces and whole.
fn text<T: for<'a> FromRow<'a> + Debug>(frame: &[u8]) -> String {
    let error = in_pieces::<T>(frame, 4096, None).unwrap_err();
    assert_eq!(whole::<T>(frame).unwrap_err(), error);
    error.to_string()
}

#[test]
fn each_error_has_its_text() {
    let ints = int_page(vec![Value::from(1), Value::from(2), Value::Null, Value::Empty]);
    let lists = page(vec![spec("l", list(plain(Kind::Int)))], vec![Value::List(vec![Value::from(1), Value::Null])]);
    let blobs = page(vec![spec("b", plain(Kind::Blob))], vec![Value::Leaf(Atom::Blob(vec![1, 2]))]);
    let tuples =
        page(vec![spec("t", tuple(vec![plain(Kind::Int), plain(Kind::Int)]))], vec![Value::Tuple(vec![Value::from(1), Value::from(2)])]);
    let long = page(vec![spec("l", list(plain(Kind::Int)))], vec![Value::List((0..2_000).map(Value::from).collect::<Vec<_>>())]);
    let bare = bare_page(&[spec("c", plain(Kind::Int))], &[Value::from(1)]);
    row! {
        #[derive(Debug)]
        struct Other { d: i32 = "c d" }
    }
    row! {
        #[derive(Debug)]
        struct Twice { c: i32, d: i32 = "c" }
    }
    for (said, wanted) in [
        (text::<(i64,)>(&ints), r#"row 0, column 0 "c": i64 is wanted, and int came, which i32 reads"#),
        (text::<(i32,)>(&ints), r#"row 2, column 0 "c": i32 is wanted, and null came, which Option<i32> reads"#),
        (text::<(Option<i32>,)>(&ints), r#"row 3, column 0 "c": i32 is wanted, and a value without bytes came, which Value reads"#),
        (text::<(Vec<i32>,)>(&ints), r#"row 0, column 0 "c": Vec<_> is wanted, and int came, which i32 reads"#),
        (text::<(Vec<i32>,)>(&lists), r#"row 0, column 0 "l": i32 is wanted, and null came, which Option<i32> reads"#),
        (text::<(String,)>(&lists), r#"row 0, column 0 "l": String is wanted, and list came, which Vec reads"#),
        (text::<([u8; 3],)>(&blobs), r#"row 0, column 0 "b": [u8; 3] is wanted, and a blob of 2 bytes came, which Vec<u8> reads"#),
        (text::<((i32,),)>(&tuples), r#"row 0, column 0 "t": a tuple of 1 is wanted, and 2 fields came, which a tuple of as many reads"#),
        (text::<(i32, i32)>(&ints), "a tuple of 2 is wanted, and the page has 1 columns: select more, or take a shorter tuple"),
        (text::<Other>(&ints), r#"the page has no column "c d": select it, or rename the field by = "COLUMN""#),
        (text::<Twice>(&ints), r#"two fields of the struct ask for column "c": leave one out"#),
        (text::<Other>(&bare), "the page has no metadata: give the columns of the PREPARED result, or take a tuple"),
        (
            text::<(i32,)>(&bare),
            r#"row 0, column 0 "": i32 is wanted, and the page has no types: give those of the PREPARED result, or ask for metadata"#,
        ),
        (text::<(i32,)>(b"\x83\0\0\0\x08\0\0\0\0"), "the decoder refused BadVersion at byte 0"),
        (
            whole::<(i32,)>(&ints[..40]).unwrap_err().to_string(),
            "the frame is longer than the 40 bytes that are there: read on, or take a RowSink",
        ),
        (
            whole::<(i32,)>(b"\x84\0\0\0\x02\0\0\0\0").unwrap_err().to_string(),
            "the frame is no page of rows: look at its opcode and result kind first",
        ),
        (whole::<(i32,)>(ERROR).unwrap_err().to_string(), "the server answered ERROR 2000: BAD"),
        (
            in_pieces::<(Vec<i32>,)>(&long, 4096, None).unwrap_err().to_string(),
            "row 0, column 0: more items or bytes than CellLimits allow: raise them",
        ),
    ] {
        assert_eq!(said, wanted);
    }
    assert!(whole::<(Vec<i32>,)>(&long).is_ok());
    assert_eq!(whole::<(Vec<u8>,)>(&bare).unwrap(), [(vec![0, 0, 0, 1],)]);
}

/// Nothing is held of a column that no field asks for.
#[test]
fn columns_are_passed_over() {
    row! {
        #[derive(Debug, PartialEq)]
        struct Id { id: i32 }
    }
    let cells = vec![Value::List((0..2_000).map(Value::from).collect::<Vec<_>>()), Value::from(7)];
    let frame = page(vec![spec("l", list(plain(Kind::Int))), spec("id", plain(Kind::Int))], cells);
    for size in [1, 7, 4096] {
        assert_eq!(in_pieces::<Id>(&frame, size, None), Ok(vec![Id { id: 7 }]));
    }
}

/// Rows before the one that has an error are read, and none after it.
#[test]
fn rows_before_an_error() {
    let ints = int_page(vec![Value::from(1), Value::from(2), Value::Null, Value::from(3)]);
    let rows: Vec<_> = page_rows::<(i32,)>(&ints).unwrap().map(|row| row.ok()).collect();
    assert_eq!(rows, [Some((1,)), Some((2,)), None]);
    let mut taken = 0;
    let mut sink = RowSink::new(|_: (Option<i32>,)| {
        taken += 1;
        if taken < 2 { Ok(()) } else { Err(SinkFault) }
    });
    let mut decoder = Decoder::new(Limits::DEFAULT).unwrap();
    assert_eq!(sink.feed(&mut decoder, &ints), Err(RowError::Stopped));
    assert_eq!(taken, 2);
}

#[test]
fn contents_in_parts_are_refused() {
    let frame = page(vec![spec("b", plain(Kind::Blob))], vec![Value::Leaf(Atom::Blob(vec![7; 2_000]))]);
    let mut reader = PageReader::new(Limits { parts: true, cell: 1_000, ..Limits::DEFAULT }).unwrap().with_cell_limits(ALL);
    let error = reader.rows::<(Vec<u8>,)>(&frame).unwrap().next().unwrap().unwrap_err();
    assert_eq!(error, RowError::InParts { row: 0, column: 0 });
    assert_eq!(error.to_string(), "row 0, column 0: a content in parts: make the decoder with Limits::parts false");
}

#[test]
fn what_a_page_says_beside_its_cells() {
    let table = Some(("k".to_string(), "t".to_string()));
    let meta = Metadata { flags: 3, columns: 1, paging: Some(Some(vec![7, 8])), table, specs: Some(vec![spec("c", plain(Kind::Int))]) };
    let frame = written(Message::Rows(Rows { meta, rows: 1, cells: vec![Value::from(1)] }));
    let rows = page_rows::<(i32,)>(&frame).unwrap();
    let head = rows.head();
    assert_eq!((head.columns, head.rows, head.paging_state.as_deref(), head.ended), (1, 1, Some(&[7, 8][..]), false));
    assert_eq!(head.header.unwrap().stream, 7);
}

#[test]
fn types_past_the_limits_are_not_given() {
    let mut reader = PageReader::new(Limits { entries: 1, ..Limits::DEFAULT }).unwrap();
    assert_eq!(reader.give(&user_specs()), Err(TableError::TooLong));
}

#[test]
fn what_cannot_be_bound() {
    let specs = [spec("id", plain(Kind::Int)), spec("l", list(plain(Kind::Varchar))), spec("t", plain(Kind::Time))];
    for (bound, wanted) in [
        (bind!(&specs; 7, "x"), "the statement binds 3 values, and 2 are given"),
        (bind!(&specs; 7i64, Unset, Unset), r#"value 0 "id": int is wanted, which i32 writes, and i64 is given"#),
        (bind!(&specs; 7, vec![7], Unset), r#"value 1 "l": varchar is wanted, which String writes, and i32 is given"#),
        (bind!(&specs; 7, "x", Unset), r#"value 1 "l": list is wanted, which Vec writes, and str is given"#),
        (bind!(&specs; 7, Unset, Timestamp(1)), r#"value 2 "t": time is wanted, which rows::Time writes, and Timestamp is given"#),
        (bind!(&specs; 7, Unset, Time(-1)), r#"value 2 "t": the value is none of its type"#),
    ] {
        assert_eq!(bound.unwrap_err().to_string(), wanted);
    }
    let bound = bind!(&specs; None::<i32>, &["a", ""][..], Unset).unwrap();
    let words: Vec<_> = bound.iter().map(|(_, bound)| format!("{bound:?}")).collect();
    assert_eq!(words, ["Null", "Bytes([0, 0, 0, 2, 0, 0, 0, 1, 97, 0, 0, 0, 0])", "Unset"]);
}
