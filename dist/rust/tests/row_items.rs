//! Items of a page in memory, read when they are asked for: whatever is read of them, a page is refused at the byte and for the reason of a decoder.
#![forbid(unsafe_code)]

use cqlp::cells::CellLimits;
use cqlp::frame::{Atom, Frame, Message, Metadata, Rows, Spec, TypeTree, Value, encode};
use cqlp::rows::*;
use cqlp::{Decoder, Event, Fed, Kind, Limits, OfStd, Refusal, Sink, SinkFault, row};
use std::collections::{BTreeMap, BTreeSet, HashMap};
use std::fmt::Debug;

fn plain(kind: Kind) -> TypeTree {
    TypeTree::Plain(kind)
}

fn boxed(tree: TypeTree) -> Box<TypeTree> {
    Box::new(tree)
}

fn list(inner: TypeTree) -> TypeTree {
    TypeTree::List(boxed(inner))
}

fn specs() -> Vec<Spec> {
    let fields = vec![plain(Kind::Int), TypeTree::Set(boxed(plain(Kind::Varchar))), list(list(plain(Kind::Int)))];
    let pairs = TypeTree::Map(boxed(plain(Kind::Varchar)), boxed(list(plain(Kind::Smallint))));
    let named = vec![("f".to_string(), plain(Kind::Varchar)), ("g".to_string(), plain(Kind::Timeuuid))];
    let udt = TypeTree::Udt { keyspace: "k".to_string(), name: "u".to_string(), fields: named };
    let trees = [list(plain(Kind::Int)), pairs, TypeTree::Tuple(fields), udt, plain(Kind::Int)];
    let spec = |(name, tree): (&str, _)| Spec { table: None, name: name.to_string(), tree };
    ["a", "b", "c", "d", "e"].into_iter().zip(trees).map(spec).collect()
}

fn text(text: &str) -> Value {
    Value::Leaf(Atom::Varchar(text.to_string()))
}

fn ints(numbers: &[i32]) -> Value {
    Value::List(numbers.iter().copied().map(Value::from).collect::<Vec<_>>())
}

fn shorts(numbers: &[i16]) -> Value {
    Value::List(numbers.iter().map(|number| Value::Leaf(Atom::Smallint(*number))).collect::<Vec<_>>())
}

/// Three rows, some of whose values are empty, null or without their last fields.
fn cells() -> Vec<Value> {
    let pairs = vec![(text("one"), shorts(&[1, 2])), (text("no"), shorts(&[])), (text("é"), shorts(&[3]))];
    let inner = Value::List(vec![ints(&[7, 8]), ints(&[]), ints(&[9])]);
    let words = Value::Set(vec![text("x"), text("yz")]);
    let time = Value::Leaf(Atom::Timeuuid(*b"012345\x17\x17abcdefgh"));
    let full = [ints(&[1, 2, 3]), Value::Map(pairs), Value::Tuple(vec![Value::from(5), words, inner])];
    let short = [ints(&[]), Value::Map(vec![]), Value::Tuple(vec![Value::from(6)])];
    let last = [Value::Null, Value::Empty, Value::Tuple(vec![Value::Null, Value::Set(vec![]), Value::List(vec![])])];
    let rest = |udt: Vec<Value>, number| [Value::Udt(udt), Value::from(number)];
    let rows = [(full, rest(vec![text("u"), time], 1)), (short, rest(vec![text("v")], 2)), (last, rest(vec![Value::Null], 3))];
    rows.into_iter().flat_map(|(front, rest)| front.into_iter().chain(rest)).collect()
}

/// The frame, and where its rows begin.
fn page(specs: Vec<Spec>, cells: Vec<Value>, has_types: bool) -> (Vec<u8>, usize) {
    let written = |rows, cells: Vec<Value>, specs: &dyn Fn() -> Vec<Spec>| {
        let columns = specs().len() as u32;
        let table = has_types.then(|| ("k".to_string(), "t".to_string()));
        let meta = Metadata { flags: if has_types { 1 } else { 4 }, columns, paging: None, table, specs: has_types.then(specs) };
        let mut target = OfStd::new(Vec::new());
        encode(&Frame::plain(7, Message::Rows(Rows { meta, rows, cells })), &mut target).unwrap();
        target.into_inner()
    };
    let copies = || specs.iter().map(|spec| Spec { table: None, name: spec.name.clone(), tree: spec.tree.clone() }).collect();
    let start = written(0, vec![], &copies).len();
    let raw = |(i, cell): (usize, &Value)| cqlp::frame::raw_value(cell, Some(&specs[i % specs.len()].tree)).unwrap();
    let rows = (cells.len() / specs.len()) as u32;
    let cells = if has_types { cells } else { cells.iter().enumerate().map(raw).collect() };
    (written(rows, cells, &copies), start)
}

/// A cell with all that is in it, in words.
fn shown(cell: LentCell) -> String {
    match cell {
        LentCell::Items(items) => format!("{:?} {} {:?}", items.kind(), items.items(), items.map(shown).collect::<Vec<_>>()),
        other => format!("{other:?}"),
    }
}

/// Implements `FromCell` for types of what they take of a cell.
macro_rules! takes {
    ($($(#[$meta:meta])* $name:ident = $take:expr;)+) => {$(
        $(#[$meta])*
        #[derive(Debug, PartialEq)]
        struct $name(String);

        impl<'a> FromCell<'a> for $name {
            fn from_cell(cell: LentCell<'a, '_>) -> Result<Self, Mismatch> {
                let take: fn(LentCell) -> String = $take;
                Ok($name(take(cell)))
            }
        }
    )+};
}

fn items_of<'a, 's>(cell: LentCell<'a, 's>) -> Vec<LentCell<'a, 's>> {
    if let LentCell::Items(items) = cell { items.collect() } else { vec![] }
}

takes! {
    Nothing = |_| String::new();
    First = |cell| if let LentCell::Items(mut items) = cell { items.next().map(shown).unwrap_or_default() } else { shown(cell) };
    /// The last item but one, whose inner ones are read, and none of the others'.
    Later = |cell| items_of(cell).into_iter().rev().nth(1).map(shown).unwrap_or_default();
    All = shown;
    /// As many as are said, without a look after the last.
    AsMany = |cell| if let LentCell::Items(items) = cell { items.take(items.items() as usize).map(shown).collect() } else { shown(cell) };
    Backwards = |cell| items_of(cell).into_iter().rev().map(shown).collect();
    /// In part, and then from the front on; then what is inner again.
    Twice = |cell| {
        let LentCell::Items(items) = cell else { return shown(cell) };
        let part = items.take(1).map(shown).collect::<String>();
        let kept = items.collect::<Vec<_>>();
        let (once, again) = (items.map(shown).collect::<String>(), kept.into_iter().map(shown).collect::<String>());
        assert_eq!(once, again);
        part + &once
    };
}

struct All0;

impl Sink for All0 {
    fn take(&mut self, _at: u64, _event: &Event<'_>) -> Result<(), SinkFault> {
        Ok(())
    }
}

/// Why a decoder refuses the frame.
fn refusal(decoder: &mut Decoder, frame: &[u8]) -> Option<Refusal> {
    decoder.restart();
    match decoder.feed(frame, &mut All0) {
        Fed::Refused { refusal, .. } => Some(refusal),
        _ => None,
    }
}

const LIMITS: Limits = Limits { entries: 64, text: 64, ..Limits::DEFAULT };

/// The rows of a frame, and the error after them.
type Read<T> = (Vec<T>, Option<RowError>);

fn whole<'a, T: FromRow<'a>>(reader: &mut PageReader, frame: &'a [u8]) -> Read<T> {
    let mut rows = Vec::new();
    let error = reader.rows(frame).and_then(|mut page| page.try_for_each(|row| row.map(|row| rows.push(row)))).err();
    (rows, error)
}

fn in_pieces<T: for<'a> FromRow<'a>>(decoder: &mut Decoder, limits: CellLimits, frame: &[u8]) -> Read<T> {
    decoder.restart();
    let mut rows = Vec::new();
    let mut sink = RowSink::with_limits(limits, |row| {
        rows.push(row);
        Ok(())
    });
    let error = sink.feed(decoder, frame).err();
    (rows, error)
}

/// Frames with a byte changed, in the rows.
fn changed() -> impl Iterator<Item = Vec<u8>> {
    let (frame, start) = page(specs(), cells(), true);
    let bytes = (start..frame.len()).flat_map(|at| [0, 1, 2, 0x7f, 0x80, 0xff].map(|byte| (at, byte)));
    bytes.map(move |(at, byte)| {
        let mut frame = frame.clone();
        frame[at] = byte;
        frame
    })
}

/// A row of type T is refused as the decoder does, and is what a sink reads of the same bytes.
fn same<T: for<'a> FromRow<'a> + PartialEq + Debug>() {
    let (mut reader, mut decoder) = (PageReader::new(LIMITS).unwrap(), Decoder::new(LIMITS).unwrap());
    let mut refused = 0;
    for frame in changed() {
        let (rows, error) = whole::<T>(&mut reader, &frame);
        let wanted = in_pieces::<T>(&mut decoder, CELL_LIMITS, &frame);
        assert_eq!((&rows, &error), (&wanted.0, &wanted.1), "{frame:?}");
        if let Some(RowError::Refused(_)) | None = error {
            assert_eq!(error, refusal(&mut decoder, &frame).map(RowError::Refused));
            refused += usize::from(error.is_some());
        }
    }
    assert!(refused > 50, "{refused}");
}

#[test]
fn items_that_are_not_read() {
    same::<(Nothing, Nothing, Nothing, Nothing, Nothing)>();
}

#[test]
fn items_that_are_read_in_part() {
    same::<(First, First, First, First, Nothing)>();
    same::<(Later, Later, Later, Later, Nothing)>();
}

#[test]
fn items_that_are_read_in_full() {
    same::<(All, All, All, All, All)>();
    same::<(AsMany, AsMany, AsMany, AsMany, AsMany)>();
    same::<(Backwards, Backwards, Backwards, Backwards, Nothing)>();
}

#[test]
fn items_that_are_read_twice() {
    same::<(Twice, Twice, Twice, Twice, Twice)>();
}

type Pairs = BTreeMap<String, Vec<i16>>;

#[test]
fn items_of_types() {
    type Fields = (Option<i32>, Option<BTreeSet<String>>, Option<Vec<Vec<i32>>>);
    same::<(Option<Vec<i32>>, Option<Pairs>, Fields, (Option<String>, Option<Timeuuid>), i32)>();
    same::<(Option<Vec<Option<i32>>>, HashMap<String, Vec<i16>>, Nothing, Value, Option<i32>)>();
    same::<(Value, Value, Value, Value, Value)>();
    // Nothing is such a value: the mismatch is that of the first cell, unless a decoder refuses that.
    same::<(Vec<String>, BTreeMap<i32, i32>, (i32, i32), (String, String), i64)>();
}

row! {
    #[derive(Debug, PartialEq)]
    struct Backward { e: i32, d: Value, b: Option<Pairs> }
}

row! {
    #[derive(Debug, PartialEq)]
    struct Front { a: Option<Vec<i32>>, b: First }
}

/// Columns in another order, some of them no fields'.
#[test]
fn items_of_columns_by_names() {
    same::<Backward>();
    same::<Front>();
    same::<(Nothing,)>();
}

/// A type that says a kind with items is read the fastest from: it is read all the same.
#[derive(Debug, PartialEq)]
struct Known(Vec<i32>);

impl<'a> FromCell<'a> for Known {
    const KIND: Option<Kind> = Some(Kind::List);

    fn from_cell(cell: LentCell<'a, '_>) -> Result<Self, Mismatch> {
        if let LentCell::Null = cell { Ok(Known(vec![])) } else { Vec::from_cell(cell).map(Known) }
    }
}

#[test]
fn a_kind_with_items_is_no_hint() {
    same::<(Known, Nothing, Nothing, Nothing, i32)>();
    let frame = page(
        vec![Spec { table: None, name: "l".to_string(), tree: list(list(plain(Kind::Int))) }],
        vec![Value::List(vec![ints(&[1, 2])])],
        true,
    )
    .0;
    let (rows, error) = whole::<(Vec<Known>,)>(&mut PageReader::new(LIMITS).unwrap(), &frame);
    assert_eq!((rows, error), (vec![(vec![Known(vec![1, 2])],)], None));
}

/// So many values may be in a cell, and no more, whatever is read of it; none are counted of a column that is no field's.
#[test]
fn values_in_a_cell_are_limited() {
    let (frame, _) = page(specs(), cells(), true);
    let mut decoder = Decoder::new(LIMITS).unwrap();
    for events in 0..20 {
        let limits = CellLimits { events, bytes: 1_000 };
        let mut reader = PageReader::new(LIMITS).unwrap().with_cell_limits(limits);
        let (rows, error) = whole::<(Nothing, All, First, Nothing, i32)>(&mut reader, &frame);
        assert_eq!((rows, error), in_pieces(&mut decoder, limits, &frame), "{events}");
        let (rows, error) = whole::<Backward>(&mut reader, &frame);
        assert_eq!((rows, error), in_pieces(&mut decoder, limits, &frame), "{events}");
    }
}

/// Pages without metadata, whose columns were given.
#[test]
fn items_of_given_columns() {
    let (frame, _) = page(specs(), cells(), true);
    let (bare, start) = page(specs(), cells(), false);
    let mut reader = PageReader::new(LIMITS).unwrap();
    let wanted = whole::<(All, All, All, All, All)>(&mut reader, &frame);
    assert_eq!((wanted.0.len(), &wanted.1), (3, &None));
    reader.give(&specs()).unwrap();
    assert_eq!(whole::<(All, All, All, All, All)>(&mut reader, &bare), wanted);
    // The first cell is refused where it has two items for three, though nothing reads them.
    let mut cut = bare;
    cut[start + 7] = 4;
    let (rows, error) = whole::<(Nothing, Nothing)>(&mut reader, &cut);
    assert_eq!((rows.len(), error.unwrap().to_string()), (0, format!("the decoder refused Overrun at byte {}", start + 32)));
}

/// What is lent of items lives as long as the page.
#[test]
fn items_are_lent_from_the_page() {
    let (frame, _) = page(specs(), cells(), true);
    let keys: Vec<Vec<&str>> = {
        let mut reader = PageReader::new(LIMITS).unwrap();
        let (rows, error) = whole::<(Nothing, Option<BTreeMap<&str, Vec<i16>>>)>(&mut reader, &frame);
        assert_eq!(error, None);
        rows.into_iter().map(|(_, pairs)| pairs.unwrap().into_keys().collect()).collect()
    };
    assert_eq!(keys, [vec!["no", "one", "é"], vec![], vec![]]);
}

/// The items before the one that is no value are handed.
#[test]
fn items_are_handed_to_a_closure() {
    struct Sums(i32, usize);

    impl<'a> FromCell<'a> for Sums {
        fn from_cell(cell: LentCell<'a, '_>) -> Result<Self, Mismatch> {
            let mut sums = Sums(0, 0);
            match cell {
                LentCell::Items(items) if items.kind() == Kind::Map => items.read_pairs(|key: &str, value: Vec<i16>| {
                    sums.0 += value.into_iter().map(i32::from).sum::<i32>();
                    sums.1 += key.len();
                })?,
                LentCell::Items(items) => items.read_each(|number: i32| sums.0 += number)?,
                _ => {}
            }
            Ok(sums)
        }
    }

    let (frame, _) = page(specs(), cells(), true);
    let (rows, error) = whole::<(Sums, Sums)>(&mut PageReader::new(LIMITS).unwrap(), &frame);
    assert_eq!(error, None);
    let sums: Vec<_> = rows.into_iter().map(|(list, map)| (list.0, map.0, map.1)).collect();
    assert_eq!(sums, [(6, 6, 7), (0, 0, 0), (0, 0, 0)]);
}
