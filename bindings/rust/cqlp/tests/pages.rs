//! Pages are written of their events, some cells at a time: those of bindings/streams.txt and pages.bin as `encode` writes them whole.

mod common;

use common::bindings;
use common::frames::{frames, frames_of, refusal, WholeFrame};
use cqlp::{
    cells_size, encode, Code, EncodeError, Event, Field, Frame, Kind, Limits, Opcode, PageError, PageWriter, Place,
    Scalar, What,
};
use std::io::{self, Write};

/// Where the count of the rows is, if this is a page.
fn rows_of(events: &[Event<'_>]) -> Option<usize> {
    let is_rows = |event: &Event<'_>| matches!(event.what, What::Count(Field::Rows, _));
    events.iter().position(is_rows)
}

/// All pages that can be written, of the streams and of pages.bin.
fn pages() -> Vec<WholeFrame> {
    let mut all = frames();
    let bytes = std::fs::read(bindings().join("pages.bin")).unwrap();
    all.extend(frames_of("pages.bin", Limits::default(), bytes));
    all.retain(|frame| rows_of(&frame.events).is_some() && refusal(frame).is_none());
    all
}

/// Writes a page with a flush after each batch of this many events.
fn in_batches(events: &[Event<'_>], batch: usize) -> Vec<u8> {
    let mut writer = PageWriter::new(Vec::new(), 0);
    for some in events.chunks(batch) {
        for event in some {
            if let What::Count(Field::Rows, _) = event.what {
                writer.size = cells_size(events).unwrap();
            }
            writer.take(event).unwrap();
        }
        writer.flush().unwrap();
    }
    writer.end().unwrap()
}

#[test]
fn pages_in_batches() {
    let pages = pages();
    for page in &pages {
        let wanted = encode(&page.events).unwrap();
        let without_end = &page.events[..page.events.len() - 1];
        for batch in [1, 3, 64, usize::MAX] {
            assert_eq!(in_batches(&page.events, batch), wanted, "{} {batch}", page.name);
            assert_eq!(in_batches(without_end, batch), wanted, "{} {batch}", page.name);
        }
    }
    assert!(pages.len() >= 21, "{}", pages.len());
}

/// What is measured in parts is what the body of a page has after its head.
#[test]
fn cells_are_measured() {
    for page in pages() {
        let rows = rows_of(&page.events).unwrap();
        let [rows, end] = [&page.events[rows], page.events.last().unwrap()];
        let What::End(extra) = end.what else { unreachable!() };
        let wanted = end.at - rows.at - 4 - u64::from(extra);
        assert_eq!(cells_size(&page.events), Ok(wanted), "{}", page.name);
        let each = page.events.iter().map(|event| cells_size(&[*event]).unwrap());
        assert_eq!(each.sum::<u64>(), wanted, "{}", page.name);
    }
    let (null, part) = (What::Null(at(0, 0, 0)), part());
    let mut events = [null; 200].map(|what| Event { at: 0, what });
    assert_eq!(cells_size(&events), Ok(800));
    events[130].what = part;
    let (index, code) = (Some(130), Code::Unbuilt);
    assert_eq!(cells_size(&events), Err(EncodeError { index, code }));
}

fn at(row: u32, column: u32, level: u32) -> Place {
    Place { row, column, level }
}

fn part() -> What<'static> {
    What::Part {
        place: at(1, 0, 0),
        offset: 0,
        bytes: b"x",
        last: true,
    }
}

fn items(row: u32, number: i32) -> [What<'static>; 4] {
    let place = at(row, 1, 0);
    [
        What::Enter {
            place,
            kind: Kind::List,
            items: 2,
        },
        What::Leaf(at(row, 1, 1), Scalar::Int(number)),
        What::Null(at(row, 1, 1)),
        What::Leave { level: 0, items: 2 },
    ]
}

/// A page of two rows, a text and a list of two ints in each, one of them null; its cells have 49 bytes.
fn page() -> Vec<Event<'static>> {
    let header = Frame {
        response: true,
        flags: 0,
        stream: 7,
        opcode: Opcode::Result,
        length: 0,
    };
    let mut page = vec![
        What::Frame(header),
        What::Int(Field::ResultKind, 2),
        What::Int(Field::MetaFlags, 1),
        What::Count(Field::Columns, 2),
        What::Text(Field::Keyspace, "k"),
        What::Text(Field::Table, "t"),
        What::Text(Field::ColumnName, "a"),
        What::TypeNode(Kind::Varchar),
        What::Text(Field::ColumnName, "b"),
        What::TypeNode(Kind::List),
        What::TypeNode(Kind::Int),
        What::Count(Field::Rows, 2),
        What::Leaf(at(0, 0, 0), Scalar::Varchar("x")),
    ];
    page.extend(items(0, 1));
    page.push(What::Null(at(1, 0, 0)));
    page.extend(items(1, 2));
    page.push(What::End(0));
    page.into_iter().map(|what| Event { at: 0, what }).collect()
}

const SIZE: u64 = 5 + 20 + 4 + 20;

/// What is written of a page before it is refused, and why it is.
fn refused(events: &[Event<'_>], size: u64) -> (usize, EncodeError) {
    let mut written = Vec::new();
    let mut writer = PageWriter::new(&mut written, size);
    let mut failed = events.iter().find_map(|event| writer.take(event).err());
    if failed.is_some() {
        for again in [writer.take(&events[0]), writer.flush()] {
            assert_eq!(again.unwrap_err().to_string(), "the events together: NoPage");
        }
        assert!(matches!(writer.end(), Err(PageError::Refused(why)) if why.code == Code::NoPage));
    } else {
        failed = writer.end().err();
    }
    match failed {
        Some(PageError::Refused(why)) => (written.len(), why),
        other => panic!("{other:?}"),
    }
}

#[test]
fn what_is_refused() {
    let head = encode(&page()).unwrap().len() - SIZE as usize;
    let int = |row, column, level| What::Leaf(at(row, column, level), Scalar::Int(7));
    let rows = |count| What::Count(Field::Rows, count);
    for (which, what, size, index, code, written) in [
        (1, What::Int(Field::ResultKind, 1), SIZE, None, Code::NoSuchFrame, 0),
        (0, What::Int(Field::ResultKind, 2), SIZE, Some(0), Code::Misplaced, 0),
        (11, rows(1 << 31), SIZE, None, Code::TooManyRows, 0),
        (11, rows(13), SIZE, None, Code::CellsMissing, head + 49),
        (11, rows(2), 15, Some(16), Code::PastSize, head + 5),
        (11, rows(2), 1 << 40, None, Code::BadLength, 0),
        (11, What::End(0), SIZE, Some(11), Code::NoRows, 0),
        (11, What::Other(19), SIZE, Some(11), Code::NoEvent, 0),
        (11, rows(2), SIZE + 1, None, Code::BytesMissing, head + 49),
        (11, rows(2), SIZE - 1, Some(21), Code::PastSize, head + 29),
        (11, rows(3), SIZE, None, Code::CellsMissing, head + 49),
        (11, rows(1), SIZE, Some(17), Code::Misplaced, head + 25),
        (17, What::Null(at(1, 1, 0)), SIZE, Some(17), Code::Misplaced, head + 25),
        (17, What::Null(at(0, 0, 0)), SIZE, Some(17), Code::Misplaced, head + 25),
        (17, rows(2), SIZE, Some(17), Code::Misplaced, head + 25),
        (17, part(), SIZE, Some(17), Code::Unbuilt, head + 25),
        (17, What::Other(19), SIZE, Some(17), Code::NoEvent, head + 25),
        (12, int(0, 0, 0), SIZE, Some(12), Code::NoValue, head),
        (
            21,
            What::Leave { level: 0, items: 3 },
            SIZE,
            Some(21),
            Code::NoValue,
            head + 29,
        ),
        (21, What::End(0), SIZE, None, Code::NotEnded, head + 29),
        (18, What::End(0), SIZE, None, Code::CellsMissing, head + 29),
    ] {
        let mut events = page();
        events[which].what = what;
        let found = refused(&events, size);
        assert_eq!(found, (written, EncodeError { index, code }), "{which} {what:?} {size}");
    }
    let (_, error) = refused(&page()[..19], SIZE);
    assert_eq!(error.to_string(), "the events together: NotEnded");
    let (_, error) = refused(&page()[..5], SIZE);
    assert_eq!(error.to_string(), "event 4: NoRows");
    let (_, error) = refused(&[], SIZE);
    assert_eq!(error.code, Code::Misplaced);
}

#[test]
fn no_event_after_the_end() {
    let mut writer = PageWriter::new(Vec::new(), SIZE);
    page().iter().for_each(|event| writer.take(event).unwrap());
    let error = writer.take(&page()[0]).unwrap_err();
    assert!(matches!(error, PageError::Refused(why) if why == EncodeError { index: None, code: Code::NoPage }));
    writer.flush().unwrap();
    assert_eq!(writer.end().unwrap(), encode(&page()).unwrap());
}

/// Cells that are longer than the room, after and before short ones.
#[test]
fn long_cells() {
    let text = "x".repeat(100_000);
    let mut events = page();
    events[17].what = What::Leaf(at(1, 0, 0), Scalar::Varchar(&text));
    let size = cells_size(&events).unwrap();
    assert_eq!(size, SIZE + 100_000);
    let mut writer = PageWriter::new(Vec::new(), size);
    events.iter().for_each(|event| writer.take(event).unwrap());
    assert_eq!(writer.end().unwrap(), encode(&events).unwrap());
    let name = "n".repeat(65_535);
    events[6].what = What::Text(Field::ColumnName, &name);
    assert_eq!(in_batches(&events, 5), encode(&events).unwrap());
}

/// A writer that has room for this many bytes.
struct Narrow(usize);

impl Write for Narrow {
    fn write(&mut self, bytes: &[u8]) -> io::Result<usize> {
        if bytes.len() > self.0 {
            return Err(io::ErrorKind::BrokenPipe.into());
        }
        self.0 -= bytes.len();
        Ok(bytes.len())
    }

    fn flush(&mut self) -> io::Result<()> {
        Ok(())
    }
}

#[test]
fn a_writer_that_fails() {
    for room in 0..encode(&page()).unwrap().len() {
        let mut writer = PageWriter::new(Narrow(room), SIZE);
        let mut taken = page().into_iter().map(|event| writer.take(&event));
        match taken.find_map(Result::err) {
            Some(PageError::Io(why)) => assert_eq!(why.kind(), io::ErrorKind::BrokenPipe),
            other => panic!("{other:?}"),
        }
        let again = writer.take(&page()[0]).unwrap_err();
        assert_eq!(again.to_string(), "the events together: NoPage");
    }
}

#[test]
fn a_page_goes_to_another_thread() {
    let mut writer = PageWriter::new(Vec::new(), SIZE);
    page()[..15].iter().for_each(|event| writer.take(event).unwrap());
    let rest = std::thread::spawn(move || {
        page()[15..].iter().for_each(|event| writer.take(event).unwrap());
        writer.end().unwrap()
    });
    assert_eq!(rest.join().unwrap(), encode(&page()).unwrap());
}
