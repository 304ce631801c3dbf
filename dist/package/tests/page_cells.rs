//! A page that is whole in memory is read as a decoder reads it: the same cells, and the same refusal at the same byte, of pages of each
//! kind of scalar, and of pages whose bytes were changed at random. CQLP_STREAMS is how many pages there are, 3,000 where it is not set.
#![forbid(unsafe_code)]

use crate::common::{Numbers, count};
use cqlp::frame::{Frame, Message, Metadata, Rows, Spec, TypeTree, encode};
use cqlp::rows::{FromCell, FromRow, LentCell, Mismatch, PageReader, RowError};
use cqlp::{Decoder, Event, Kind, Limits, OfStd, Refusal, Step};

/// Lengths that a content of a kind may have, and what a byte of it may be.
const KINDS: [(Kind, &[usize]); 21] = [
    (Kind::Int, &[4]),
    (Kind::Bigint, &[8]),
    (Kind::Varchar, &[1, 7, 8, 9, 40, 70]),
    (Kind::Boolean, &[1]),
    (Kind::Ascii, &[1, 16, 33]),
    (Kind::Blob, &[1, 2, 100]),
    (Kind::Counter, &[8]),
    (Kind::Decimal, &[5, 9, 30]),
    (Kind::Double, &[8]),
    (Kind::Float, &[4]),
    (Kind::Timestamp, &[8]),
    (Kind::Uuid, &[16]),
    (Kind::Varint, &[1, 8, 20]),
    (Kind::Timeuuid, &[16]),
    (Kind::Inet, &[4, 16]),
    (Kind::Date, &[4]),
    (Kind::Time, &[8]),
    (Kind::Smallint, &[2]),
    (Kind::Tinyint, &[1]),
    (Kind::Custom, &[1, 64]),
    (Kind::Raw, &[1, 50]),
];

/// What a cell holds, in words. K is the kind from which it is read the fastest, by its place in `KINDS`; no kind from 21 on.
#[derive(Debug, PartialEq)]
struct Shown<const K: usize>(String);

impl<'a, const K: usize> FromCell<'a> for Shown<K> {
    const KIND: Option<Kind> = if K < KINDS.len() { Some(KINDS[K].0) } else { None };

    fn from_cell(cell: LentCell<'a, '_>) -> Result<Self, Mismatch> {
        Ok(Shown(match cell {
            LentCell::Null => "null".to_string(),
            LentCell::Empty => "empty".to_string(),
            LentCell::Scalar(scalar) => format!("{scalar:?}"),
            LentCell::Items(items) => format!("{} items", items.count()),
        }))
    }
}

/// A row of 7 cells, in words.
trait Words {
    fn words(self) -> Vec<String>;
}

macro_rules! words {
    ($($type:ty)+) => {$(
        impl Words for $type {
            fn words(self) -> Vec<String> {
                let (a, b, c, d, e, f, g) = self;
                vec![a.0, b.0, c.0, d.0, e.0, f.0, g.0]
            }
        }
    )+};
}

type First = (Shown<0>, Shown<1>, Shown<2>, Shown<3>, Shown<4>, Shown<5>, Shown<6>);
type Second = (Shown<7>, Shown<8>, Shown<9>, Shown<10>, Shown<11>, Shown<12>, Shown<13>);
type Third = (Shown<13>, Shown<14>, Shown<15>, Shown<16>, Shown<17>, Shown<18>, Shown<19>);
type Untyped = (Shown<20>, Shown<20>, Shown<20>, Shown<20>, Shown<20>, Shown<20>, Shown<20>);
type Slow = (Shown<21>, Shown<21>, Shown<21>, Shown<21>, Shown<21>, Shown<21>, Shown<21>);
words! { First Second Third Untyped Slow }

cqlp::row! {
    /// The columns in another order, of which one is passed over.
    struct Turned { column6: Shown<6>, column0: Shown<0>, column2: Shown<2>, column1: Shown<21>, column4: Shown<4>, column5: Shown<21> }
}

impl Turned {
    fn words(self) -> Vec<String> {
        vec![self.column0.0, self.column1.0, self.column2.0, self.column4.0, self.column5.0, self.column6.0]
    }
}

/// The rows that were read, and why there are no more.
type Outcome = (Vec<Vec<String>>, Option<Refusal>);

/// What a decoder says of the cells of a page, by its events.
fn by_events(limits: Limits, given: Option<&[Spec]>, page: &[u8]) -> Option<Outcome> {
    let mut decoder = Decoder::new(limits).unwrap();
    if let Some(given) = given {
        decoder.give(cqlp::table_of_specs(given).unwrap()).unwrap();
    }
    let (mut used, mut rows, mut row, mut columns, mut is_page) = (0, Vec::new(), Vec::new(), 0, false);
    loop {
        match decoder.next(&page[used..]) {
            Step::More { .. } => return None,
            Step::Refused(refusal) => return is_page.then_some((rows, Some(refusal))),
            Step::Event { used: taken, event, .. } => {
                used += taken;
                match event {
                    Event::Count { field: cqlp::Field::Columns, count } => columns = count,
                    Event::Count { field: cqlp::Field::Rows, .. } => is_page = true,
                    Event::Leaf { scalar, .. } => row.push(format!("{scalar:?}")),
                    Event::Null { .. } => row.push("null".to_string()),
                    Event::Empty { .. } => row.push("empty".to_string()),
                    Event::End { .. } => return is_page.then_some((rows, None)),
                    _ => {}
                }
                if columns > 0 && row.len() == columns as usize {
                    rows.push(std::mem::take(&mut row));
                }
            }
        }
    }
}

/// The same by rows; None where the columns are not those of the type.
fn by_rows<'a, T: FromRow<'a>>(reader: &mut PageReader, page: &'a [u8], words: impl Fn(T) -> Vec<String>) -> Option<Outcome> {
    let mut said = Vec::new();
    for row in reader.rows::<T>(page).ok()? {
        match row {
            Ok(row) => said.push(words(row)),
            Err(RowError::Refused(refusal)) => return Some((said, Some(refusal))),
            Err(RowError::Cut { .. }) => return None,
            Err(error) => panic!("{error}"),
        }
    }
    Some((said, None))
}

fn specs(kinds: &[Kind]) -> Vec<Spec> {
    let tree = |kind| if kind == Kind::Custom { TypeTree::Custom("c".to_string()) } else { TypeTree::Plain(kind) };
    kinds.iter().enumerate().map(|(place, kind)| Spec { table: None, name: format!("column{place}"), tree: tree(*kind) }).collect()
}

/// A page of these columns, or of as many without metadata: so many rows, and their cells.
fn page(specs: Vec<Spec>, bare: bool, rows: u32, cells: &[u8]) -> Vec<u8> {
    let columns = specs.len() as u32;
    let table = (!bare).then(|| ("shop".to_string(), "user".to_string()));
    let meta = Metadata { flags: if bare { 4 } else { 1 }, columns, paging: None, table, specs: (!bare).then_some(specs) };
    let mut target = OfStd::new(Vec::new());
    encode(&Frame::plain(7, Message::Rows(Rows { meta, rows: 0, cells: Vec::new() })), &mut target).unwrap();
    let mut page = target.into_inner();
    page.truncate(page.len() - 4);
    page.extend(rows.to_be_bytes());
    page.extend(cells);
    set_length(&mut page);
    page
}

/// Writes how long the body is.
fn set_length(page: &mut [u8]) {
    let length = (page.len() - 9) as u32;
    page[5..9].copy_from_slice(&length.to_be_bytes());
}

/// The bytes of a cell of a kind: most often a value of it.
fn cell(numbers: &mut Numbers, kind: usize) -> Vec<u8> {
    let (kind, lengths) = KINDS[kind];
    let length = match numbers.below(40) {
        0 | 1 => return (-1_i32).to_be_bytes().to_vec(),
        2 => return 0_u32.to_be_bytes().to_vec(),
        3 => return (-2_i32).to_be_bytes().to_vec(),
        _ => numbers.one_of(lengths),
    };
    let letters: Vec<u8> = "zwölf Boxkämpfer jagen Viktor quer über den großen Sylter Deich, und noch mehr".bytes().take(length).collect();
    let mut content: Vec<u8> = match kind {
        Kind::Varchar => std::str::from_utf8(&letters).map_or(vec![b'x'; length], |text| text.as_bytes().to_vec()),
        Kind::Ascii => vec![b'a' + numbers.below(26) as u8; length],
        _ => (0..length).map(|_| numbers.below(256) as u8).collect(),
    };
    match kind {
        Kind::Time => content[0] = 0,
        Kind::Timeuuid => content[6] = 0x10 | content[6] & 15,
        _ => {}
    }
    [(length as u32).to_be_bytes().to_vec(), content].concat()
}

/// A page of seven columns of the kinds from a place on, and where its cells begin.
fn generated(numbers: &mut Numbers, from: usize, bare: bool) -> (Vec<u8>, usize) {
    let rows = numbers.below(70);
    let kinds: Vec<Kind> = KINDS[from..from + 7].iter().map(|(kind, _)| *kind).collect();
    let cells: Vec<u8> = (0..rows * 7).flat_map(|place| cell(numbers, from + place % 7)).collect();
    let page = page(specs(&kinds), bare, rows as u32, &cells);
    let begin = page.len() - cells.len();
    (page, begin)
}

/// A page without metadata of these kinds is one of cells whose types are not known, or of those that are given.
fn readers(limits: Limits) -> Vec<PageReader> {
    let mut given = PageReader::new(limits).unwrap();
    let mut readers = vec![PageReader::new(limits).unwrap()];
    if limits.types {
        given.give(&first_specs()).unwrap();
        readers.push(given);
    }
    readers
}

fn first_specs() -> Vec<Spec> {
    specs(&KINDS[..7].iter().map(|(kind, _)| *kind).collect::<Vec<_>>())
}

fn compare(readers: &mut [PageReader], limits: Limits, from: usize, page: &[u8]) {
    let given = first_specs();
    for (reader, given) in readers.iter_mut().zip([None, Some(&given[..])]) {
        let wanted = by_events(limits, given, page);
        let Some(wanted) = wanted else { continue };
        let said = match from {
            0 => by_rows(reader, page, First::words),
            7 => by_rows(reader, page, Second::words),
            _ => by_rows(reader, page, Third::words),
        };
        let others = [by_rows(reader, page, Untyped::words), by_rows(reader, page, Slow::words)];
        for said in [said].into_iter().chain(others).flatten() {
            let cut: Vec<Vec<String>> = wanted.0.iter().map(|row| row[..7].to_vec()).collect();
            assert_eq!((said.0, said.1), (cut, wanted.1), "{page:02x?}");
        }
        if let Some((said, refusal)) = by_rows(reader, page, Turned::words) {
            let some = |row: &Vec<String>| [0, 1, 2, 4, 5, 6].map(|column| row[column].clone()).to_vec();
            assert_eq!((said, refusal), (wanted.0.iter().map(some).collect(), wanted.1), "{page:02x?}");
        }
    }
}

#[test]
fn each_kind_of_scalar() {
    let mut numbers = Numbers::new();
    for limits in [Limits::DEFAULT, Limits { cell: 32, ..Limits::DEFAULT }, Limits { types: false, ..Limits::DEFAULT }] {
        let mut readers = readers(limits);
        for case in 0..60 {
            for from in [0, 7, 13] {
                let (page, _) = generated(&mut numbers, from, case % 4 == 3);
                compare(&mut readers, limits, from, &page);
            }
        }
    }
}

#[test]
fn changed_pages() {
    let mut numbers = Numbers::new();
    let mut readers = readers(Limits::DEFAULT);
    let (mut refused, count) = (0, count().min(10_000));
    for _ in 0..count {
        let from = numbers.one_of(&[0, 7, 13]);
        let bare = numbers.below(6) == 0;
        let (mut page, begin) = generated(&mut numbers, from, bare);
        let least = if numbers.below(10) == 0 { 9 } else { begin };
        for _ in 0..numbers.one_of(&[1, 1, 2, 3, 8]) {
            if page.len() > least {
                let place = least + numbers.below(page.len() - least);
                let any = numbers.below(256) as u8;
                page[place] = numbers.one_of(&[0, 1, 2, 4, 8, 16, 0x7f, 0x80, 0xc3, 0xff, any]);
            }
        }
        if numbers.below(4) == 0 {
            page.truncate(page.len() - numbers.below(page.len() - begin + 1).min(60));
            set_length(&mut page);
        }
        refused += u64::from(by_events(Limits::DEFAULT, None, &page).is_some_and(|(_, refusal)| refusal.is_some()));
        compare(&mut readers, Limits::DEFAULT, from, &page);
    }
    assert!(refused > count / 5, "{refused}");
}
