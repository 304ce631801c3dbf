//! The arrays of columns: each kind of layout, cells without a value, and where there is no room; and batches of rows.
use cqlp::columns::{BatchLimits, Cell, Column, ColumnRefusal, Columns, Layout, MakeError, TakeError, layout_of};
use cqlp::{Address, Event, Kind, Scalar};

/// A column of these cells, or of those before the first that is refused.
fn filled(kind: Kind, rows: u32, size: usize, cells: &[Cell<'_>]) -> (Column, Option<ColumnRefusal>) {
    let mut column = Column::new(kind, rows, size).unwrap();
    for cell in cells {
        if let Err(why) = column.take(cell) {
            return (column, Some(why));
        }
    }
    (column, None)
}

fn text(text: &str) -> Cell<'_> {
    Cell::Holds(Scalar::Varchar(text))
}

#[test]
fn numbers_have_their_lowest_byte_first() {
    let ten: Vec<Cell> = (0..10).map(|i| if i % 3 == 1 { Cell::Null } else { Cell::Holds(Scalar::Int(i - 5)) }).collect();
    let (mut column, refusal) = filled(Kind::Int, 10, 40, &ten);
    assert_eq!((refusal, column.len(), column.layout()), (None, 10, Layout::Fixed(4)));
    assert_eq!(column.values()[..12], [251, 255, 255, 255, 0, 0, 0, 0, 253, 255, 255, 255]);
    assert_eq!((column.validity(), column.empties()), (&[0b0110_1101, 0b11][..], &[0, 0][..]));
    assert_eq!(column.take(&Cell::Null), Err(ColumnRefusal::Full));
    column.clear();
    assert_eq!((column.len(), column.values().len(), column.validity().len()), (0, 0, 0));
    assert_eq!(column.take(&Cell::Null), Ok(()));
}

#[test]
fn each_layout_has_its_arrays() {
    let double = Cell::Holds(Scalar::Double([1, 2, 3, 4, 5, 6, 7, 8]));
    let decimal = Cell::Holds(Scalar::Decimal { scale: 1, unscaled: &[9, 9] });
    let inet = Cell::Holds(Scalar::Inet(Address::V4([127, 0, 0, 1])));
    let (yes, no) = (Cell::Holds(Scalar::Boolean(true)), Cell::Holds(Scalar::Boolean(false)));
    let (full, other) = (Some(ColumnRefusal::Full), Some(ColumnRefusal::NotOfKind));
    type Row<'a> = (Kind, usize, &'a [Cell<'a>], Option<ColumnRefusal>, &'a [u8], &'a [u64], u8, u8);
    let rows: [Row<'_>; 7] = [
        (Kind::Varchar, 5, &[text("ab"), Cell::Empty, Cell::Null, text("cde"), text("f")], full, b"abcde", &[0, 2, 2, 2, 5], 0b1011, 0b10),
        (Kind::Boolean, 0, &[yes, Cell::Empty, yes, no], None, &[0b101], &[], 0b1101, 0b10),
        (Kind::Double, 16, &[double, Cell::Empty, double], full, &[8, 7, 6, 5, 4, 3, 2, 1, 0, 0, 0, 0, 0, 0, 0, 0], &[], 0b01, 0b10),
        (Kind::Double, 16, &[double, yes], other, &[8, 7, 6, 5, 4, 3, 2, 1], &[], 1, 0),
        (Kind::Decimal, 8, &[decimal], None, &[0, 0, 0, 1, 9, 9], &[0, 6], 1, 0),
        (Kind::Inet, 8, &[inet, inet, inet], full, &[127, 0, 0, 1, 127, 0, 0, 1], &[0, 4, 8], 0b11, 0),
        (Kind::Smallint, 2, &[Cell::Holds(Scalar::Smallint(-2)), Cell::Null], full, &[254, 255], &[], 1, 0),
    ];
    for (kind, size, cells, wanted, values, offsets, valid, empty) in rows {
        let (column, refusal) = filled(kind, 8, size, cells);
        assert_eq!((refusal, column.values(), column.offsets()), (wanted, values, offsets), "{kind:?}");
        assert_eq!((column.validity(), column.empties()), (&[valid][..], &[empty][..]), "{kind:?}");
    }
}

#[test]
fn values_with_items_have_no_layout() {
    for kind in [Kind::List, Kind::Map, Kind::Set, Kind::Udt, Kind::Tuple] {
        assert_eq!(layout_of(kind), None);
        assert!(matches!(Column::new(kind, 1, 1), Err(MakeError::Unsupported)));
    }
}

const LIMITS: BatchLimits = BatchLimits { columns: 2, rows: 3, bytes: 8, content: 6 };

fn leaf(column: u32, level: u32, scalar: Scalar<'_>) -> Event<'_> {
    Event::Leaf { row: 0, column, level, scalar }
}

#[test]
fn batches_are_full_where_rows_begin() {
    let mut batch = Columns::new(LIMITS, &[Kind::Varchar, Kind::Int]).unwrap();
    let (text, number) = (leaf(0, 0, Scalar::Varchar("abcde")), leaf(1, 0, Scalar::Int(1)));
    for _ in 0..2 {
        for event in [&text, &number, &Event::End { extra: 0 }, &text] {
            assert_eq!(batch.take(event), Ok(()));
        }
        assert_eq!((batch.rows(), batch.take(&Event::Null { row: 1, column: 1, level: 0 })), (1, Ok(())));
        assert_eq!((batch.rows(), batch.take(&text)), (2, Err(TakeError::Full)));
        assert_eq!((batch.columns()[0].values(), batch.columns()[0].offsets()), (&b"abcdeabcde"[..], &[0, 5, 10][..]));
        assert_eq!((batch.columns()[1].values(), batch.columns()[1].validity()), (&[1, 0, 0, 0, 0, 0, 0, 0][..], &[1][..]));
        batch.clear();
    }
}

#[test]
fn what_is_no_cell_of_a_batch_is_refused_by_name() {
    let mut batch = Columns::new(LIMITS, &[Kind::Varchar, Kind::Int]).unwrap();
    let enter = Event::Enter { row: 0, column: 0, level: 0, kind: Kind::List, items: 0 };
    let rows = [
        (enter, TakeError::Part),
        (leaf(0, 1, Scalar::Varchar("a")), TakeError::Part),
        (leaf(1, 0, Scalar::Int(1)), TakeError::OutOfOrder),
        (leaf(0, 0, Scalar::Int(1)), TakeError::NotOfKind),
        (leaf(0, 0, Scalar::Varchar("abcdefg")), TakeError::TooLong),
    ];
    for (event, why) in rows {
        assert_eq!((batch.take(&event), batch.columns()[0].len()), (Err(why), 0));
    }
    let made = |kinds: &[Kind]| Columns::new(LIMITS, kinds).map(|batch| batch.columns().len());
    assert_eq!(made(&[Kind::Int, Kind::List]), Err(MakeError::Unsupported));
    assert_eq!(made(&[Kind::List; 3]), Err(MakeError::TooManyColumns));
    assert_eq!(made(&[]), Ok(0));
}
