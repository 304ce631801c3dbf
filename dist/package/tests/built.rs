//! Frames that are built of the events of worked and of changed streams, altered, written and read again, and the same that are composed.
//! CQLP_STREAMS is how many changed streams there are, 3,000 where it is not set.
#![forbid(unsafe_code)]

use crate::common::{Numbers, count, limits, mutated, streams};
use cqlp::frame::{Atom, BuildError, BuildLimits, BuiltFrame, Composer, Frame, FrameBuilder, Message, encode};
use cqlp::{Decoder, Event, Field, Header, Kind, Limits, OfStd, Opcode, Scalar, Step};

const ALL: BuildLimits = BuildLimits { fields: 1 << 24, depth: 64, bytes: 1 << 28 };

/// A frame that was read: its events in words, what was built of them, and what was composed.
struct Seen {
    events: Vec<String>,
    built: BuiltFrame,
    composed: Vec<u8>,
}

/// The frames of a stream up to its first fault.
fn frames(limits: Limits, stream: &[u8]) -> Vec<Seen> {
    let (mut decoder, mut builder) = (Decoder::new(limits).unwrap(), FrameBuilder::new(ALL));
    let (mut seen, mut rest, mut events, mut composer) = (Vec::new(), stream, Vec::new(), Composer::new(ALL));
    while let Step::Event { used, event, .. } = decoder.next(rest) {
        rest = &rest[used..];
        events.push(format!("{event:?}"));
        composer.take(&event).unwrap();
        let built = builder.take(&event).unwrap();
        assert_eq!((built.is_some(), builder.is_between()), (matches!(event, Event::End { .. }), built.is_some()));
        if let Some(built) = built {
            let composed = std::mem::replace(&mut composer, Composer::new(ALL)).write().unwrap();
            seen.push(Seen { events: std::mem::take(&mut events), built, composed });
        }
    }
    seen
}

fn encoded(frame: &Frame) -> Vec<u8> {
    let mut target = OfStd::new(Vec::new());
    encode(frame, &mut target).unwrap();
    target.into_inner()
}

/// Each frame of a stream is written as it was composed, with the events that it was built of but for the bytes after its last field, and
/// altered with just that alteration. How many there were.
fn come_back(limits: Limits, stream: &[u8]) -> usize {
    let limits = Limits { types: true, parts: false, ..limits };
    let seen = frames(limits, stream);
    let count = seen.len();
    for Seen { events, built: BuiltFrame { mut frame, extra }, composed } in seen {
        let bytes = encoded(&frame);
        assert_eq!(bytes, composed);
        let [again] = &frames(limits, &bytes)[..] else { panic!("{bytes:02x?}") };
        assert_eq!((&again.built.frame, again.built.extra), (&frame, 0));
        let same = if extra == 0 { 0..events.len() } else { 1..events.len() - 1 };
        assert_eq!(again.events[same.clone()], events[same]);
        frame.stream ^= 0x1234;
        let mut altered = bytes;
        altered[2] ^= 0x12;
        altered[3] ^= 0x34;
        assert_eq!(encoded(&frame), altered);
    }
    count
}

#[test]
fn worked_streams() {
    let count: usize = streams().iter().map(|stream| come_back(stream.limits, &stream.bytes)).sum();
    assert!(count >= 80, "{count}");
}

#[test]
fn changed_streams() {
    let bases: Vec<Vec<u8>> = streams().into_iter().map(|stream| stream.bytes).filter(|bytes| bytes.len() < 2_000).collect();
    let mut numbers = Numbers::new();
    let frames: usize = (0..count()).map(|_| come_back(limits(&mut numbers), &mutated(&mut numbers, &bases))).sum();
    assert!(frames as u64 > count() / 4, "{frames}");
}

fn header(opcode: Opcode, response: bool, length: u32) -> Event<'static> {
    Event::Frame(Header { response, flags: 0, stream: 0, opcode, length })
}

/// What a builder within these limits says of each of some events.
fn said(limits: BuildLimits, events: &[Event<'_>]) -> Vec<Option<BuildError>> {
    let mut builder = FrameBuilder::new(limits);
    events.iter().map(|event| builder.take(event).err()).collect()
}

const TEXT: Event<'static> = Event::Text { field: Field::Query, text: "x" };

#[test]
fn events_of_another_place() {
    let (options, end) = (header(Opcode::Options, false, 0), Event::End { extra: 0 });
    assert_eq!(
        said(ALL, &[TEXT, end, options, options, end]),
        [Some(BuildError::Misplaced), Some(BuildError::Misplaced), None, Some(BuildError::Misplaced), None]
    );
    for (opcode, response, length) in
        [(Opcode::Options, true, 0), (Opcode::Options, false, 1), (Opcode::Query, false, 0), (Opcode::Ready, false, 0)]
    {
        assert_eq!(said(ALL, &[header(opcode, response, length), end]), [None, Some(BuildError::NoFrame)]);
    }
    assert_eq!(said(ALL, &[options, TEXT, end]), [None, None, Some(BuildError::NoFrame)]);
    let part = Event::Part { row: 0, column: 0, level: 0, offset: 0, bytes: b"x", last: true };
    assert_eq!(said(ALL, &[options, part, end]), [None, Some(BuildError::Unbuilt), None]);
}

#[test]
fn limits_of_a_frame() {
    let limits = BuildLimits { fields: 3, depth: 2, bytes: 2 };
    let begin = header(Opcode::Query, false, 0);
    let (list, int) = (Event::TypeNode(Kind::List), Event::TypeNode(Kind::Int));
    let blob = Event::Leaf { row: 0, column: 0, level: 0, scalar: Scalar::Blob(b"abc") };
    assert_eq!(said(limits, &[begin, TEXT, TEXT, TEXT]), [None, None, None, Some(BuildError::TooManyBytes)]);
    assert_eq!(said(limits, &[begin, int, int, int, int]), [None, None, None, None, Some(BuildError::TooManyFields)]);
    assert_eq!(said(limits, &[begin, list, list, int]), [None, None, None, Some(BuildError::TooDeep)]);
    assert_eq!(said(limits, &[begin, blob]), [None, Some(BuildError::TooManyBytes)]);
}

/// Which event a composer names of the first frame of a stream without one of its events and its end, or of as many of those; and how many it took.
fn named(limits: Limits, stream: &[u8], without: usize, most: usize) -> (usize, usize) {
    let limits = Limits { types: true, parts: false, ..limits };
    let (mut decoder, mut composer) = (Decoder::new(limits).unwrap(), Composer::new(ALL));
    let (mut rest, mut at, mut taken) = (stream, 0, 0);
    while let Step::Event { used, event, .. } = decoder.next(rest) {
        rest = &rest[used..];
        if let Event::End { .. } = event {
            break;
        }
        taken += usize::from(at != without && taken < most && composer.take(&event).is_ok());
        at += 1;
    }
    (composer.misfit().unwrap(), taken)
}

/// Of the first frame of each stream without one of its events a composer names an event behind it. Those before the one that is named all fit, and with
/// it they do not.
#[test]
fn events_that_do_not_fit() {
    let mut misfits = 0;
    for stream in streams() {
        let (all, count) = named(stream.limits, &stream.bytes, usize::MAX, usize::MAX);
        assert_eq!(all, count);
        for without in 1..count {
            let (misfit, taken) = named(stream.limits, &stream.bytes, without, usize::MAX);
            assert_eq!((without <= misfit, misfit <= taken, taken), (true, true, count - 1));
            assert_eq!(named(stream.limits, &stream.bytes, without, misfit), (misfit, misfit));
            if misfit < taken {
                assert_eq!(named(stream.limits, &stream.bytes, without, misfit + 1), (misfit, misfit + 1));
                misfits += 1;
            }
        }
    }
    assert!(misfits > 300, "{misfits}");
    assert_eq!(Composer::new(ALL).misfit(), Ok(0));
}

/// A frame that is given up leaves nothing; one that is closed has the length of its fields, whatever its header says.
#[test]
fn frames_given_up_and_closed() {
    let mut builder = FrameBuilder::new(ALL);
    assert_eq!(builder.close(), Err(BuildError::Misplaced));
    for event in [header(Opcode::Query, false, 9), TEXT] {
        assert_eq!(builder.take(&event), Ok(None));
    }
    builder.clear();
    assert!(builder.is_between());
    assert_eq!(builder.take(&header(Opcode::Options, false, 9)), Ok(None));
    assert_eq!(encoded(&builder.close().unwrap()), [4, 0, 0, 0, 5, 0, 0, 0, 0]);
}

/// Of the events of a page of three rows of an int and a varchar, of which the cells are these: its cells, or which event does not fit.
fn page_of(cells: &[Event<'_>]) -> Result<Vec<String>, usize> {
    let count = |field, count| Event::Count { field, count };
    let text = |field| Event::Text { field, text: "x" };
    let mut events = vec![
        header(Opcode::Result, true, 0),
        Event::Int { field: Field::ResultKind, value: 2 },
        Event::Int { field: Field::MetaFlags, value: 1 },
        count(Field::Columns, 2),
        text(Field::Keyspace),
        text(Field::Table),
    ];
    for kind in [Kind::Int, Kind::Varchar] {
        events.extend([text(Field::ColumnName), Event::TypeNode(kind)]);
    }
    events.push(count(Field::Rows, 3));
    let before = events.len();
    events.extend_from_slice(cells);
    let [mut closing, mut naming] = [(); 2].map(|()| FrameBuilder::new(ALL));
    for event in &events {
        assert_eq!((closing.take(event), naming.take(event)), (Ok(None), Ok(None)));
    }
    let misfit = naming.misfit().unwrap();
    match closing.close() {
        Ok(Frame { message: Message::Rows(page), .. }) => {
            assert_eq!(misfit, events.len());
            Ok(page.cells.iter().map(|cell| format!("{cell:?}")).collect())
        }
        Ok(frame) => panic!("{frame:?}"),
        Err(why) => {
            assert_eq!(why, BuildError::NoFrame);
            Err(misfit - before)
        }
    }
}

/// The cell of each row and column of such a page.
fn page_cells() -> Vec<Event<'static>> {
    let cell = |row, column, scalar| Event::Leaf { row, column, level: 0, scalar };
    (0..3).flat_map(|row| [cell(row, 0, Scalar::Int(-7)), cell(row, 1, Scalar::Varchar("é"))]).collect()
}

/// Each cell of a page may be null or empty. Where one is of another type, of another place, a text of no bytes or a value with items, the page is none,
/// and that event is named; so is the first that comes too late, and the end of those that come too early.
#[test]
fn cells_of_a_page() {
    let shown = |scalar| format!("{:?}", cqlp::frame::Value::Leaf(scalar));
    let [int, text] = [shown(Atom::Int(-7)), shown(Atom::Varchar("é".to_owned()))];
    let all: Vec<String> = (0..3).flat_map(|_| [int.clone(), text.clone()]).collect();
    assert_eq!(page_of(&page_cells()), Ok(all.clone()));
    for at in 0..6 {
        let (row, column) = (at as u32 / 2, at as u32 % 2);
        let with = |event| {
            let mut cells = page_cells();
            cells[at] = event;
            page_of(&cells)
        };
        for (event, word) in [(Event::Null { row, column, level: 0 }, "Null"), (Event::Empty { row, column, level: 0 }, "Empty")] {
            let mut others = all.clone();
            others[at] = word.to_owned();
            assert_eq!(with(event), Ok(others));
        }
        let leaf = |row, column, level, scalar| Event::Leaf { row, column, level, scalar };
        for event in [
            leaf(row, column, 0, Scalar::Bigint(-7)),
            leaf(row, column, 0, Scalar::Varchar("")),
            leaf(row + 1, column, 0, Scalar::Int(-7)),
            leaf(row, column + 2, 0, Scalar::Int(-7)),
            leaf(row, column, 1, Scalar::Int(-7)),
            Event::Enter { row, column, level: 0, kind: Kind::List, items: 0 },
            Event::Leave { level: 0, items: 0 },
            TEXT,
        ] {
            assert_eq!(with(event), Err(at), "{event:?}");
        }
        assert_eq!(page_of(&page_cells()[..at]).unwrap_err(), at);
        assert_eq!(page_of(&[&page_cells()[..], &page_cells()[at..=at]].concat()), Err(6));
    }
}
