//! Pages read into columns: each cut of a page's bytes, cells without a value, batches that fill, and what the columns do not take; and of all streams
//! of bindings/streams.txt, that what they and the sink beside them get together is what the decoder says alone.

mod common;

use common::streams::{streams, Stream as Case};
use cqlp::columns::{BatchLimits, Column, Columns, Filled, MakeError, PageColumns, Stop};
use cqlp::{Decoder, Event, Kind, Limits, Place, Scalar, Sink, SinkFault, What};

const LIMITS: BatchLimits = BatchLimits {
    columns: 4,
    rows: 2,
    bytes: 1 << 10,
    content: 1 << 6,
};
const KINDS: [Kind; 3] = [Kind::Int, Kind::Varchar, Kind::Boolean];

/// What the columns do not take, in words, at most so many.
struct Others {
    words: Vec<String>,
    room: usize,
}

impl Sink for Others {
    fn take(&mut self, at: u64, event: &Event<'_>) -> Result<(), SinkFault> {
        assert_eq!(at, event.at);
        if self.words.len() == self.room {
            return Err(SinkFault);
        }
        self.words.push(event.to_string());
        Ok(())
    }
}

/// A frame of a page whose columns have these options, with these cells.
fn page(options: &[u16], rows: u32, cells: &[Option<&[u8]>]) -> Vec<u8> {
    let mut body = [0, 0, 0, 2, 0, 0, 0, 1].to_vec();
    body.extend((options.len() as u32).to_be_bytes());
    body.extend(b"\0\x01k\0\x01t");
    for option in options {
        body.extend(b"\0\x01c");
        body.extend(option.to_be_bytes());
    }
    body.extend(rows.to_be_bytes());
    for cell in cells {
        body.extend(cell.map_or(-1, |cell| cell.len() as i32).to_be_bytes());
        body.extend(cell.unwrap_or_default());
    }
    let mut frame = [0x84, 0, 0, 1, 8].to_vec();
    frame.extend((body.len() as u32).to_be_bytes());
    frame.extend(body);
    frame
}

fn three_rows() -> Vec<u8> {
    let (one, yes): (&[u8], &[u8]) = (&[0, 0, 0, 1], &[1]);
    let cells = [
        Some(one),
        Some(b"abc"),
        Some(yes),
        None,
        Some(b""),
        Some(b""),
        Some(b""),
        None,
        Some(&[0]),
    ];
    page(&[9, 13, 4], 3, &cells)
}

fn reader(kinds: &[Kind], room: usize) -> PageColumns<Others> {
    let words = Vec::new();
    PageColumns::new(Columns::new(LIMITS, kinds).unwrap(), Others { words, room })
}

/// The values, the offsets and the bits of a column.
type Arrays = (Vec<u8>, Vec<u64>, Vec<u8>, Vec<u8>);

fn arrays_of(column: &Column) -> Arrays {
    let (values, offsets) = (column.values().to_vec(), column.offsets().to_vec());
    (values, offsets, column.validity().to_vec(), column.empties().to_vec())
}

fn arrays(columns: &Columns) -> Vec<Arrays> {
    columns.columns().iter().map(arrays_of).collect()
}

/// All batches of the pieces, the rest last, and the other events.
fn read(pieces: &[&[u8]]) -> (Vec<Vec<Arrays>>, Vec<String>) {
    let mut decoder = Decoder::new(Limits::default()).unwrap();
    let (mut page, mut batches) = (reader(&KINDS, usize::MAX), Vec::new());
    for piece in pieces {
        let mut used = 0;
        loop {
            let filled = page.read(&mut decoder, &piece[used..]);
            used += filled.used;
            match filled.stop {
                Stop::More => break,
                Stop::Full => {
                    assert_eq!(page.columns.rows(), 2);
                    let stop = Stop::Full;
                    assert_eq!(page.read(&mut decoder, &piece[used..]), Filled { used: 0, stop });
                    batches.push(arrays(&page.columns));
                    page.columns.clear();
                    assert_eq!((page.columns.rows(), page.columns.columns()[0].is_empty()), (0, true));
                }
                Stop::Other => {}
                stop => panic!("{stop:?}"),
            }
        }
        assert_eq!(used, piece.len());
    }
    batches.push(arrays(&page.columns));
    (batches, page.other.words)
}

#[test]
fn each_cut_gives_the_same_arrays() {
    let frame = three_rows();
    let (batches, others) = read(&[&frame]);
    let ints = (vec![1, 0, 0, 0, 0, 0, 0, 0], vec![], vec![0b01], vec![0]);
    let texts = (b"abc".to_vec(), vec![0, 3, 3], vec![0b11], vec![0b10]);
    let flags = (vec![0b01], vec![], vec![0b01], vec![0b10]);
    assert_eq!(batches[0], [ints, texts, flags]);
    let last = [
        (vec![0; 4], vec![], vec![0], vec![1]),
        (vec![], vec![0, 0], vec![0], vec![0]),
        (vec![0], vec![], vec![1], vec![0]),
    ];
    assert_eq!((batches.len(), &batches[1][..]), (2, &last[..]));
    assert!(others[0].starts_with("0 Frame") && others.last().unwrap().contains("End"));
    for cut in 0..=frame.len() {
        let (left, right) = frame.split_at(cut);
        assert_eq!(read(&[left, right]), (batches.clone(), others.clone()), "{cut}");
    }
    let bytes: Vec<&[u8]> = frame.chunks(1).collect();
    assert_eq!(read(&bytes), (batches, others));
}

#[test]
fn what_is_not_taken_goes_to_the_other_sink() {
    let frame = page(&[9, 13, 4], 1, &[Some(&[0, 0, 0, 7]), Some(b"x"), Some(&[1])]);
    let mut decoder = Decoder::new(Limits::default()).unwrap();
    let mut other = reader(&[Kind::Int, Kind::Int, Kind::Boolean], usize::MAX);
    let (mut used, mut stops) = (0, Vec::new());
    while used < frame.len() || stops.last() == Some(&Stop::Other) {
        let filled = other.read(&mut decoder, &frame[used..]);
        used += filled.used;
        stops.push(filled.stop);
    }
    let words = &other.other.words;
    assert!(
        words[words.len() - 3].ends_with("\"x\"") && words[words.len() - 2].ends_with("true"),
        "{words:?}"
    );
    assert_eq!((stops.len(), stops.pop()), (words.len() + 1, Some(Stop::More)));
    assert_eq!(other.columns.columns()[0].values(), [7, 0, 0, 0]);
}

#[test]
fn a_sink_that_fails_and_a_refusal_stop_it() {
    let frame = three_rows();
    let mut decoder = Decoder::new(Limits::default()).unwrap();
    let mut page = reader(&KINDS, 1);
    let stop = Stop::Other;
    assert_eq!(page.read(&mut decoder, &frame), Filled { used: 9, stop });
    assert_eq!(page.read(&mut decoder, &frame[9..]).stop, Stop::Failed);
    let mut decoder = Decoder::new(Limits::default()).unwrap();
    let mut page = reader(&KINDS, usize::MAX);
    for _ in 0..2 {
        let filled = page.read(&mut decoder, &[0xff; 9]);
        assert!(
            filled.used == 0 && matches!(filled.stop, Stop::Refused(refusal) if refusal.at == 0),
            "{filled:?}"
        );
    }
}

#[test]
fn why_no_columns_are_made() {
    let made = |kinds: &[Kind]| Columns::new(LIMITS, kinds).map(|columns| columns.columns().len());
    assert_eq!(made(&[Kind::Int, Kind::List]), Err(MakeError::Unsupported));
    assert_eq!(made(&[Kind::Other(0x7f), Kind::List]), Err(MakeError::BadKind));
    assert_eq!(made(&[Kind::Int; 5]), Err(MakeError::TooManyColumns));
    assert_eq!((made(&[]), made(&KINDS)), (Ok(0), Ok(3)));
    assert_eq!(MakeError::Unsupported.to_string(), "values with items");
}

#[test]
fn columns_go_to_another_thread() {
    let (frame, mut used) = (three_rows(), 0);
    let mut page = reader(&KINDS, usize::MAX);
    let mut decoder = Decoder::new(Limits::default()).unwrap();
    let moved = std::thread::spawn(move || {
        let filled = loop {
            let filled = page.read(&mut decoder, &frame[used..]);
            used += filled.used;
            if filled.stop != Stop::Other {
                break filled;
            }
        };
        (filled.stop, page)
    });
    let (stop, page) = moved.join().unwrap();
    assert_eq!((stop, page.columns.rows()), (Stop::Full, 2));
}

/// An event in words: of a whole cell its column and its value.
fn word_of(event: &Event<'_>) -> String {
    let cell = |place: Place, said: &str| format!("cell {} {said}", place.column);
    match event.what {
        What::Leaf(place, scalar) if place.level == 0 => cell(place, &scalar.to_string()),
        What::Null(place) if place.level == 0 => cell(place, "null"),
        What::Empty(place) if place.level == 0 => cell(place, "empty"),
        _ => event.to_string(),
    }
}

/// What the columns do not take, in words.
#[derive(Default)]
struct Words(Vec<String>);

impl Sink for Words {
    fn take(&mut self, _: u64, event: &Event<'_>) -> Result<(), SinkFault> {
        self.0.push(word_of(event));
        Ok(())
    }
}

/// All events of a stream in words, and of each column the kind of its first scalar, or raw where it has none.
fn events_in_words(case: &Case) -> (Vec<String>, Vec<Kind>) {
    let (mut words, mut kinds) = (Vec::new(), Vec::new());
    let mut decoder = Decoder::new(case.limits).unwrap();
    let mut events = decoder.decode(&case.bytes);
    while let Ok(Some(event)) = events.next_event() {
        words.push(word_of(&event));
        let (What::Leaf(place, _) | What::Null(place) | What::Empty(place)) = event.what else {
            continue;
        };
        let column = place.column as usize;
        if kinds.len() <= column {
            kinds.resize(column + 1, None);
        }
        if let (What::Leaf(Place { level: 0, .. }, scalar), None) = (event.what, kinds[column]) {
            kinds[column] = Some(kind_of(scalar));
        }
    }
    (words, kinds.into_iter().map(|kind| kind.unwrap_or(Kind::Raw)).collect())
}

fn kind_of(scalar: Scalar<'_>) -> Kind {
    match scalar {
        Scalar::Custom(_) => Kind::Custom,
        Scalar::Ascii(_) => Kind::Ascii,
        Scalar::Bigint(_) => Kind::Bigint,
        Scalar::Blob(_) => Kind::Blob,
        Scalar::Boolean(_) => Kind::Boolean,
        Scalar::Counter(_) => Kind::Counter,
        Scalar::Decimal { .. } => Kind::Decimal,
        Scalar::Double(_) => Kind::Double,
        Scalar::Float(_) => Kind::Float,
        Scalar::Int(_) => Kind::Int,
        Scalar::Timestamp(_) => Kind::Timestamp,
        Scalar::Uuid(_) => Kind::Uuid,
        Scalar::Varchar(_) => Kind::Varchar,
        Scalar::Varint(_) => Kind::Varint,
        Scalar::Timeuuid(_) => Kind::Timeuuid,
        Scalar::Inet(_) => Kind::Inet,
        Scalar::Date(_) => Kind::Date,
        Scalar::Time(_) => Kind::Time,
        Scalar::Smallint(_) => Kind::Smallint,
        Scalar::Tinyint(_) => Kind::Tinyint,
        Scalar::Raw(_) => Kind::Raw,
        _ => panic!("{scalar:?}"),
    }
}

fn bit(bits: &[u8], at: usize) -> bool {
    bits[at / 8] >> (at % 8) & 1 != 0
}

/// The number of a cell, as its bytes of this width have it.
fn number<const N: usize>(column: &Column, at: usize) -> [u8; N] {
    column.values()[N * at..N * (at + 1)].try_into().unwrap()
}

/// What a cell of a column says, as `word_of` has it.
fn said(column: &Column, at: usize) -> String {
    if bit(column.empties(), at) {
        return "empty".to_string();
    }
    if !bit(column.validity(), at) {
        return "null".to_string();
    }
    let bytes = match column.offsets() {
        [] => &[],
        offsets => &column.values()[offsets[at] as usize..offsets[at + 1] as usize],
    };
    scalar_of(column, at, bytes).to_string()
}

fn scalar_of<'a>(column: &Column, at: usize, bytes: &'a [u8]) -> Scalar<'a> {
    let text = || std::str::from_utf8(bytes).unwrap();
    match column.kind() {
        Kind::Custom => Scalar::Custom(bytes),
        Kind::Ascii => Scalar::Ascii(text()),
        Kind::Bigint => Scalar::Bigint(i64::from_le_bytes(number(column, at))),
        Kind::Blob => Scalar::Blob(bytes),
        Kind::Boolean => Scalar::Boolean(bit(column.values(), at)),
        Kind::Counter => Scalar::Counter(i64::from_le_bytes(number(column, at))),
        Kind::Decimal => Scalar::Decimal {
            scale: i32::from_be_bytes(bytes[..4].try_into().unwrap()),
            unscaled: &bytes[4..],
        },
        Kind::Double => Scalar::Double(f64::from_le_bytes(number(column, at))),
        Kind::Float => Scalar::Float(f32::from_le_bytes(number(column, at))),
        Kind::Int => Scalar::Int(i32::from_le_bytes(number(column, at))),
        Kind::Timestamp => Scalar::Timestamp(i64::from_le_bytes(number(column, at))),
        Kind::Uuid => Scalar::Uuid(number(column, at)),
        Kind::Varchar => Scalar::Varchar(text()),
        Kind::Varint => Scalar::Varint(bytes),
        Kind::Timeuuid => Scalar::Timeuuid(number(column, at)),
        Kind::Inet => Scalar::Inet(match <[u8; 4]>::try_from(bytes) {
            Ok(four) => four.into(),
            Err(_) => <[u8; 16]>::try_from(bytes).unwrap().into(),
        }),
        Kind::Date => Scalar::Date(u32::from_le_bytes(number(column, at))),
        Kind::Time => Scalar::Time(i64::from_le_bytes(number(column, at))),
        Kind::Smallint => Scalar::Smallint(i16::from_le_bytes(number(column, at))),
        Kind::Tinyint => Scalar::Tinyint(i8::from_le_bytes(number(column, at))),
        Kind::Raw => Scalar::Raw(bytes),
        kind => panic!("{kind:?}"),
    }
}

/// A stream read into columns, with its events in words: those of the columns, and those of the sink beside them, in the order in which they come.
struct Reading {
    decoder: Decoder,
    page: PageColumns<Words>,
    words: Vec<String>,
    /// How many cells of the batch are in the words, and how many came of all batches.
    seen: usize,
    cells: usize,
}

impl Reading {
    fn new(case: &Case, kinds: &[Kind]) -> Reading {
        let limits = BatchLimits { columns: 300, ..LIMITS };
        Reading {
            decoder: Decoder::new(case.limits).unwrap(),
            page: PageColumns::new(Columns::new(limits, kinds).unwrap(), Words::default()),
            words: Vec::new(),
            seen: 0,
            cells: 0,
        }
    }

    /// Puts the cells that came since the last time into words: of a row one after the other.
    fn see_cells(&mut self) {
        let columns = self.page.columns.columns();
        let count = columns.iter().map(Column::len).sum();
        for cell in self.seen..count {
            let column = cell % columns.len();
            let said = said(&columns[column], cell / columns.len());
            self.words.push(format!("cell {column} {said}"));
        }
        self.cells += count - self.seen;
        self.seen = count;
    }

    fn give(&mut self, piece: &[u8]) {
        let mut used = 0;
        loop {
            let filled = self.page.read(&mut self.decoder, &piece[used..]);
            used += filled.used;
            self.see_cells();
            self.words.append(&mut self.page.other.0);
            match filled.stop {
                Stop::More => return assert_eq!(used, piece.len()),
                Stop::Full => {
                    self.page.columns.clear();
                    self.seen = 0;
                }
                Stop::Other => {}
                Stop::Failed => panic!("the sink does not fail"),
                Stop::Refused(refusal) => return assert_eq!(self.decoder.finish().to_string(), refusal.to_string()),
            }
        }
    }
}

#[test]
fn all_streams_in_every_cut() {
    let mut cells = 0;
    for case in streams() {
        let (words, kinds) = events_in_words(&case);
        let read = |pieces: &[&[u8]]| {
            let mut reading = Reading::new(&case, &kinds);
            pieces.iter().for_each(|piece| reading.give(piece));
            assert_eq!(reading.words, words, "{}", case.name);
            assert_eq!(reading.decoder.finish().to_string(), case.verdict, "{}", case.name);
            reading.cells
        };
        for cut in 0..=case.bytes.len() {
            let (left, right) = case.bytes.split_at(cut);
            cells += read(&[left, right]);
        }
        read(&case.bytes.chunks(1).collect::<Vec<_>>());
    }
    assert!(cells > 10_000, "{cells} cells came into columns");
}
