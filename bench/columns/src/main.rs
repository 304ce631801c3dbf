//! Puts the cells of a page on standard input into columns: `columns rows|columns|kinds alone|each|batches|pages`. The page is one of pages.py; `alone` counts
//! its cells, `each` gives them to the `Column` of their column, `batches` gives the events to `Columns`, and `pages` reads them by `PageColumns`. It writes how
//! many cells there were.
use cqlp::columns::{BatchLimits, Cell, Column, Columns, PageColumns, Stop, TakeError};
use cqlp::{Decoder, Event, Kind, Limits, Sink, SinkFault, Step};
use std::io::Read;

const ROWS: u32 = 4096;
const PIECE: usize = 65_536;
const LIMITS: BatchLimits = BatchLimits { columns: 200, rows: ROWS, bytes: 1 << 17, content: 1 << 12 };

/// Counts cells.
struct Alone {
    cells: usize,
}

impl Sink for Alone {
    #[inline(always)]
    fn take(&mut self, _at: u64, event: &Event<'_>) -> Result<(), SinkFault> {
        if matches!(event, Event::Leaf { .. } | Event::Null { .. } | Event::Empty { .. }) {
            self.cells += 1;
        }
        Ok(())
    }
}

/// A column for each, which are cleared after this many rows.
struct Each {
    columns: Vec<Column>,
    cells: usize,
}

impl Each {
    #[inline(always)]
    fn put(&mut self, column: u32, cell: Cell<'_>) -> Result<(), SinkFault> {
        if column == 0 && self.columns[0].len() == ROWS as usize {
            self.clear();
        }
        self.columns[column as usize].take(&cell).map_err(|_| SinkFault)
    }

    fn clear(&mut self) {
        for column in &mut self.columns {
            self.cells += column.len();
            column.clear();
        }
    }
}

impl Sink for Each {
    #[inline(always)]
    fn take(&mut self, _at: u64, event: &Event<'_>) -> Result<(), SinkFault> {
        match *event {
            Event::Leaf { column, scalar, .. } => self.put(column, Cell::Holds(scalar)),
            Event::Null { column, .. } => self.put(column, Cell::Null),
            Event::Empty { column, .. } => self.put(column, Cell::Empty),
            _ => Ok(()),
        }
    }
}

/// A batch, which is cleared where it is full.
struct Batches {
    batch: Columns,
    cells: usize,
}

impl Batches {
    /// Takes an event into the batch that is cleared. The event is a copy, so that it lies in memory only here.
    #[cold]
    #[inline(never)]
    fn take_again(&mut self, event: Event<'_>) -> Result<(), SinkFault> {
        self.clear();
        self.batch.take(&event).map_err(|_| SinkFault)
    }

    fn clear(&mut self) {
        self.cells += self.batch.columns().iter().map(Column::len).sum::<usize>();
        self.batch.clear();
    }
}

impl Sink for Batches {
    #[inline(always)]
    fn take(&mut self, _at: u64, event: &Event<'_>) -> Result<(), SinkFault> {
        match self.batch.take(event) {
            Ok(()) => Ok(()),
            Err(TakeError::Full) => self.take_again(*event),
            Err(_) => Err(SinkFault),
        }
    }
}

/// Takes each event.
struct Rest;

impl Sink for Rest {
    fn take(&mut self, _at: u64, _event: &Event<'_>) -> Result<(), SinkFault> {
        Ok(())
    }
}

/// Reads the events of a stream into columns, and counts the cells.
fn read(stream: &[u8], kinds: &[Kind]) -> usize {
    let mut decoder = Decoder::new(Limits::DEFAULT).unwrap();
    let mut page = PageColumns::new(Columns::new(LIMITS, kinds).unwrap(), Rest);
    let mut cells = 0;
    for piece in stream.chunks(PIECE) {
        let mut rest = piece;
        loop {
            let filled = page.read(&mut decoder, rest);
            rest = &rest[filled.used..];
            match filled.stop {
                Stop::More => break,
                Stop::Other => {}
                Stop::Full => {
                    cells += page.columns.columns().iter().map(Column::len).sum::<usize>();
                    page.columns.clear();
                }
                stop => panic!("{stop:?}"),
            }
        }
    }
    cells + page.columns.columns().iter().map(Column::len).sum::<usize>()
}

/// Hands the events of a stream to a sink.
fn hand<S: Sink>(stream: &[u8], sink: &mut S) {
    let mut decoder = Decoder::new(Limits::DEFAULT).unwrap();
    for piece in stream.chunks(PIECE) {
        let mut rest = piece;
        loop {
            rest = &rest[decoder.hand_whole(rest, sink).expect("a cell that is taken")..];
            match decoder.next(rest) {
                Step::Event { at, event, used } => {
                    sink.take(at, &event).unwrap();
                    rest = &rest[used..];
                }
                Step::More { .. } => break,
                Step::Refused(refusal) => panic!("{refusal:?}"),
            }
        }
    }
}

/// The kinds of the columns of a page of pages.py.
fn kinds_of(page: &str) -> Vec<Kind> {
    use Kind::*;
    match page {
        "columns" => vec![Int; 200],
        "rows" => vec![Int, Bigint, Varchar, Boolean],
        _ => vec![
            Ascii, Bigint, Blob, Boolean, Counter, Decimal, Double, Float, Int, Timestamp, Uuid, Varchar, Varint, Timeuuid, Inet, Date, Time, Smallint,
            Tinyint,
        ],
    }
}

fn main() {
    let words: Vec<String> = std::env::args().collect();
    let kinds = kinds_of(&words[1]);
    let mut stream = Vec::new();
    std::io::stdin().read_to_end(&mut stream).unwrap();
    let cells = match words[2].as_str() {
        "alone" => {
            let mut sink = Alone { cells: 0 };
            hand(&stream, &mut sink);
            sink.cells
        }
        "each" => {
            let column = |kind: &Kind| Column::new(*kind, ROWS, 1 << 17).unwrap();
            let mut sink = Each { columns: kinds.iter().map(column).collect(), cells: 0 };
            hand(&stream, &mut sink);
            sink.clear();
            sink.cells
        }
        "pages" => read(&stream, &kinds),
        _ => {
            let mut sink = Batches { batch: Columns::new(LIMITS, &kinds).unwrap(), cells: 0 };
            hand(&stream, &mut sink);
            sink.clear();
            sink.cells
        }
    };
    println!("{cells}");
}
