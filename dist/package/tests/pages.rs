//! Pages whose cells are copied and altered one after the other: by `PageCells` of their events, by `CellBuilder` and `PageWriter` of their
//! values, and by `encode_rows`, of what is what `encode` writes of all of them.
#![forbid(unsafe_code)]

use crate::common::Numbers;
use cqlp::cells::{
    CellBuilder, CellError, CellLimits, HeadError, PageCellError, PageCells, PageProgress, ends_cell, event_size, page_head,
};
use cqlp::frame::{Atom, Frame, LentError, Message, Metadata, PageWriter, Rows, Spec, TypeTree, Unfit, Value, encode, encode_rows};
use cqlp::{Decoder, Event, Kind, Limits, OfStd, Scalar, Step};
use std::cell::Cell;

const ROWS: u32 = 3_000;
const ALL: CellLimits = CellLimits { events: 100, bytes: 1_000 };

/// An int, a list of texts, a map of ints to blobs, and a tuple of an int and a text.
fn types() -> [TypeTree; 4] {
    let boxed = |kind| Box::new(TypeTree::Plain(kind));
    let (list, map) = (TypeTree::List(boxed(Kind::Varchar)), TypeTree::Map(boxed(Kind::Int), boxed(Kind::Blob)));
    [TypeTree::Plain(Kind::Int), list, map, TypeTree::Tuple(vec![TypeTree::Plain(Kind::Int), TypeTree::Plain(Kind::Varchar)])]
}

fn int(number: u32) -> Value {
    Value::Leaf(Atom::Int(number as i32))
}

fn text(number: u32) -> Value {
    Value::Leaf(Atom::Varchar(format!("text {number}")))
}

/// The cell of a row and a column, of which some have no value.
fn cell(row: u32, column: u32) -> Value {
    match (row % 7, column) {
        (5, _) => Value::Null,
        (6, _) => Value::Empty,
        (_, 0) => int(row),
        (more, 1) => Value::List((0..more).map(text).collect::<Vec<_>>()),
        (more, 2) => Value::Map((0..more).map(|i| (int(i), Value::Leaf(Atom::Blob(vec![7; 1 + i as usize])))).collect::<Vec<_>>()),
        (more, _) => Value::Tuple((0..1 + more % 2).map(|i| if i == 0 { int(row) } else { text(row) }).collect::<Vec<_>>()),
    }
}

/// All cells of a row.
fn row(row: u32) -> Vec<Value> {
    (0..4).map(|column| cell(row, column)).collect()
}

/// A page of this many rows with these cells.
fn page(rows: u32, cells: Vec<Value>) -> Frame {
    let spec = |(i, tree)| Spec { table: None, name: format!("c{i}"), tree };
    let specs = types().into_iter().enumerate().map(spec).collect::<Vec<_>>();
    let meta = Metadata { flags: 1, columns: 4, paging: None, table: Some(("k".to_string(), "t".to_string())), specs: Some(specs) };
    Frame::plain(3, Message::Rows(Rows { meta, rows, cells }))
}

fn whole(rows: u32) -> Vec<u8> {
    let mut target = OfStd::new(Vec::new());
    encode(&page(rows, (0..rows).flat_map(row).collect()), &mut target).unwrap();
    target.into_inner()
}

/// Hands on each event of the cells of a page.
fn each_event_of_cells(bytes: &[u8], mut take: impl FnMut(&Event<'_>)) {
    let mut decoder = Decoder::new(Limits::DEFAULT).unwrap();
    for piece in bytes.chunks(100) {
        let mut rest = piece;
        while let Step::Event { used, event, .. } = decoder.next(rest) {
            rest = &rest[used..];
            if ends_cell(&event) || event_size(&event) > 0 || matches!(event, Event::Leave { .. }) {
                take(&event);
            }
        }
    }
}

#[test]
fn cells_copied_of_their_events() {
    let (bytes, bare, mut numbers) = (whole(ROWS), page(ROWS, vec![]), Numbers::new());
    let mut len = 0;
    each_event_of_cells(&bytes, |event| len += event_size(event));
    let len = len as u32;

    let mut copied = page_head(&bare, len).unwrap();
    let mut cells = Some(PageCells::new(&bare, PageProgress::start(&bare, len).unwrap(), ALL));
    let mut place = PageProgress::start(&bare, len).unwrap();
    each_event_of_cells(&bytes, |event| {
        let mut page = cells.take().unwrap();
        page.take(event).unwrap();
        if ends_cell(event) && numbers.below(10) == 0 {
            let written = page.finish().unwrap();
            copied.extend(&written.bytes);
            place = written.place;
            page = PageCells::new(&bare, place, ALL);
        }
        cells = Some(page);
    });
    let written = cells.unwrap().finish().unwrap();
    copied.extend(&written.bytes);
    assert!(copied == bytes);
    assert_eq!((written.place.is_done(&bare), written.place.cells(), written.place.free()), (true, u64::from(4 * ROWS), 0));
    assert!(!place.is_done(&bare) || written.bytes.is_empty());
}

#[test]
fn cells_built_and_written() {
    let (bytes, bare, types) = (whole(ROWS), page(ROWS, vec![]), types());
    let mut len = 0;
    each_event_of_cells(&bytes, |event| len += event_size(event));
    let (mut cells, mut copied, mut count) = (CellBuilder::new(ALL), OfStd::new(Vec::new()), 0);
    let mut writer = PageWriter::begin(&bare, len as u32, &mut copied).unwrap();
    each_event_of_cells(&bytes, |event| {
        cells.take(event).unwrap();
        if ends_cell(event) {
            let value = cells.finish(Some(&types[count as usize % 4])).unwrap();
            assert_eq!(value, cell(count / 4, count % 4));
            writer.cell(&value, &mut copied).unwrap();
            count += 1;
        }
    });
    writer.finish().unwrap();
    assert!(count == 4 * ROWS && copied.into_inner() == bytes);
}

#[test]
fn rows_lent_twice() {
    let (rows, bare) = ((0..ROWS).map(row).collect::<Vec<_>>(), page(ROWS, vec![]));
    let mut target = OfStd::new(Vec::new());
    assert_eq!(encode_rows(&bare, &rows, &mut target), Ok(whole(ROWS).len() as u32));
    assert!(target.into_inner() == whole(ROWS));

    let mut target = OfStd::new(Vec::new());
    assert_eq!(encode_rows(&bare, &rows[1..], &mut target), Err(LentError::Unfit(Unfit::RowShape)));
    let other = || vec![text(0), Value::Null, Value::Null, Value::Null];
    assert_eq!(encode_rows(&page(1, vec![]), &[other()], &mut target), Err(LentError::Unfit(Unfit::CellType)));
    assert!(target.into_inner().is_empty());
    let mut room = [0; 10];
    assert_eq!(encode_rows(&bare, &rows, &mut OfStd::new(&mut room[..])), Err(LentError::Write { written: 10 }));
}

/// A row that has another cell the second time.
struct Changing {
    cells: [Vec<Value>; 2],
    lent: Cell<usize>,
}

impl AsRef<[Value]> for Changing {
    fn as_ref(&self) -> &[Value] {
        &self.cells[self.lent.replace(1)]
    }
}

#[test]
fn rows_that_change() {
    let nulls = |first| vec![first, Value::Null, Value::Null, Value::Null];
    for (cells, wanted) in [
        ([nulls(int(1)), nulls(Value::Null)], Err(LentError::Changed)),
        ([nulls(int(1)), vec![]], Err(LentError::Changed)),
        ([nulls(int(1)), nulls(int(2))], Ok(())),
    ] {
        let row = Changing { cells, lent: Cell::new(0) };
        assert_eq!(encode_rows(&page(1, vec![]), &[row], &mut OfStd::new(Vec::new())).map(|_| ()), wanted);
    }
}

fn leaf(row: u32, column: u32, scalar: Scalar<'_>) -> Event<'_> {
    Event::Leaf { row, column, level: 0, scalar }
}

fn enter(items: u32) -> Event<'static> {
    Event::Enter { row: 0, column: 1, level: 0, kind: Kind::List, items }
}

#[test]
fn events_of_no_next_cell() {
    let bare = page(1, vec![]);
    let cell = |why| Err(PageCellError::Cell(why));
    let part = Event::Part { row: 0, column: 0, level: 0, offset: 0, bytes: b"x", last: true };
    let mut cells = PageCells::new(&bare, PageProgress::start(&bare, 20).unwrap(), CellLimits { events: 2, bytes: 3 });
    let one = |text| Event::Leaf { row: 0, column: 1, level: 1, scalar: Scalar::Varchar(text) };
    for (event, wanted) in [
        (leaf(1, 0, Scalar::Int(1)), cell(CellError::Misplaced)),
        (leaf(0, 1, Scalar::Int(1)), cell(CellError::Misplaced)),
        (Event::End { extra: 0 }, cell(CellError::Misplaced)),
        (part, cell(CellError::InParts)),
        (leaf(0, 0, Scalar::Varchar("x")), cell(CellError::NoValue)),
        (leaf(0, 0, Scalar::Varchar("abcd")), cell(CellError::TooManyBytes)),
        (leaf(0, 0, Scalar::Int(1)), Ok(())),
        (leaf(0, 0, Scalar::Int(1)), cell(CellError::Misplaced)),
        (enter(2), Ok(())),
        (one("a"), Ok(())),
        (one("b"), cell(CellError::TooManyEvents)),
    ] {
        assert_eq!(cells.take(&event), wanted, "{event:?}");
    }
    assert_eq!(cells.finish(), Err(PageCellError::NotEnded));
}

#[test]
fn cells_of_more_bytes_than_were_said() {
    let bare = page(1, vec![]);
    assert!(PageProgress::start(&bare, 3).is_ok());
    let mut cells = PageCells::new(&bare, PageProgress::start(&bare, 18).unwrap(), ALL);
    let item = Event::Leaf { row: 0, column: 1, level: 1, scalar: Scalar::Varchar("x") };
    for event in [leaf(0, 0, Scalar::Int(1)), enter(1), item] {
        assert_eq!(cells.take(&event), Ok(()));
    }
    assert_eq!(cells.take(&Event::Leave { level: 0, items: 1 }), Err(PageCellError::PastLength));
    assert_eq!(cells.take(&Event::Null { row: 0, column: 1, level: 0 }), Ok(()));
    let written = cells.finish().unwrap();
    assert_eq!(
        (&written.bytes[..], written.place.cells(), written.place.free()),
        (&[0, 0, 0, 4, 0, 0, 0, 1, 0xff, 0xff, 0xff, 0xff][..], 2, 6)
    );
    assert!(!written.place.is_done(&bare));
}

#[test]
fn pages_that_cannot_begin() {
    let options = Frame::plain(0, Message::Options);
    assert!(PageProgress::start(&options, 0).is_err());
    assert!(matches!(page_head(&options, 0), Err(HeadError::Unfit(_))));
    assert_eq!(PageProgress::start(&page(1, vec![]), u32::MAX), Err(Unfit::BodyTooLong));
}

#[test]
fn values_of_no_cell() {
    let mut cells = CellBuilder::new(ALL);
    let plain = TypeTree::Plain;
    assert_eq!(cells.finish(Some(&plain(Kind::Int))), Err(CellError::NoValue));
    for (of, wanted) in [
        (Some(plain(Kind::Int)), Ok(int(1))),
        (Some(plain(Kind::Varchar)), Err(CellError::NoValue)),
        (Some(plain(Kind::List)), Err(CellError::Unformed)),
        (None, Err(CellError::NoValue)),
    ] {
        cells.take(&leaf(0, 0, Scalar::Int(1))).unwrap();
        assert_eq!(cells.finish(of.as_ref()), wanted);
    }
    cells.take(&leaf(0, 0, Scalar::Raw(b"x"))).unwrap();
    assert_eq!(cells.finish(None), Ok(Value::Leaf(Atom::Raw(vec![b'x']))));
    cells.take(&enter(1)).unwrap();
    assert_eq!(cells.take(&leaf(0, 2, Scalar::Int(1))), Err(CellError::Misplaced));
    cells.clear();
    assert_eq!(cells.take(&leaf(0, 2, Scalar::Int(1))), Ok(()));
}
