//! Frames are written of their events: those of bindings/streams.txt as they came, and events that were changed at random as what is written
//! of them is read.

mod common;

use common::bindings;
use common::frames::{frames, refusal, spelled};
use common::streams::streams;
use cqlp::{
    encode, Bound, Code, Composer, Decoder, EncodeError, Event, Field, Frame, Kind, Limits, Opcode, Stop, What,
};
use std::collections::HashMap;

/// How many lists are changed.
const CHANGES: usize = 100_000;

#[test]
fn streams_are_written_as_they_came() {
    let (mut written, mut others, mut left) = (0, 0, 0);
    for frame in frames() {
        match encode(&frame.events) {
            Ok(bytes) => {
                assert_eq!(bytes, spelled(&frame), "{}", frame.name);
                let without_end = &frame.events[..frame.events.len() - 1];
                assert_eq!(encode(without_end), Ok(bytes.clone()), "{}", frame.name);
                assert_eq!(refusal(&frame), None, "{}", frame.name);
                written += 1;
                others += usize::from(bytes != frame.bytes);
            }
            Err(error) => {
                assert_eq!(Some(error.code), refusal(&frame), "{}", frame.name);
                left += 1;
            }
        }
    }
    println!("{written} written, {others} of them in another way; {left} left");
    assert!(written >= 82 && others >= 7 && left >= 5);
}

/// Each stream goes through one composer, from pieces of one byte.
#[test]
fn a_composer_goes_on() {
    let mut wanted = HashMap::<String, Vec<u8>>::new();
    for frame in frames() {
        let bytes = wanted.entry(frame.name.clone()).or_default();
        if refusal(&frame).is_none() {
            bytes.extend(spelled(&frame));
        }
    }
    for stream in streams() {
        let mut decoder = Decoder::new(stream.limits).unwrap();
        let (mut composer, mut written) = (Composer::new(), Vec::new());
        for piece in stream.bytes.chunks(1) {
            let mut events = decoder.decode(piece);
            while let Ok(Some(event)) = events.next_event() {
                composer.take(&event);
                if let What::End(_) = event.what {
                    written.extend(composer.write().unwrap_or_default());
                }
            }
        }
        assert_eq!(&written, wanted.entry(stream.name).or_default());
    }
}

/// An event without the length of a frame and the bytes after the last field.
fn plain(event: &Event<'_>) -> String {
    match event.what {
        What::Frame(frame) => format!("{:?}", Frame { length: 0, ..frame }),
        What::End(_) => "End".to_string(),
        // the line has each byte of a binary number, and the text before it has the kind
        what => format!("{what:?} {}", Event { at: 0, what }),
    }
}

/// What is written is read as these events, by limits that allow all of it whole.
fn must_read(bytes: &[u8], events: &[Event<'_>]) {
    let limits = Limits {
        text: 4096,
        cell: 4096,
        entries: 128,
        depth: 64,
        types: true,
        parts: false,
    };
    let mut wanted: Vec<String> = events.iter().map(plain).collect();
    if wanted.last().is_some_and(|last| last != "End") {
        wanted.push("End".to_string());
    }
    let mut decoder = Decoder::new(limits).unwrap();
    let batch = decoder.batch(bytes);
    assert_eq!((batch.used(), batch.stop()), (bytes.len(), Stop::More));
    let read: Vec<String> = batch.map(|event| plain(&event)).collect();
    assert_eq!(read, wanted);
}

/// Numbers at random, by a linear congruential generator.
struct Random(u64);

impl Random {
    fn below(&mut self, bound: usize) -> usize {
        self.0 = self
            .0
            .wrapping_mul(6_364_136_223_846_793_005)
            .wrapping_add(1_442_695_040_888_963_407);
        (self.0 >> 33) as usize % bound
    }

    fn of<T: Copy>(&mut self, items: &[T]) -> T {
        items[self.below(items.len())]
    }
}

const NUMBERS: [i64; 12] = [0, 1, -1, 2, 3, 4, 5, 255, 65_535, 65_536, i64::MAX, i64::MIN];
const TEXTS: [&str; 8] = ["", "x", "ä!", "KEYSPACE", "CREATED", "SIMPLE", "UP", "STATUS_CHANGE"];
const BYTES: [&[u8]; 4] = [b"", b"\x00", b"\xff\xff", b"0123456789abcdef"];

fn field_of(what: What<'_>) -> Option<Field> {
    match what {
        What::Byte(field, _) | What::Short(field, _) | What::Int(field, _) | What::Long(field, _) => Some(field),
        What::Count(field, _) | What::Uuid(field, _) | What::Text(field, _) => Some(field),
        What::Bytes(field, _) | What::Bound(field, _) | What::Inet(field, ..) => Some(field),
        _ => None,
    }
}

fn with_field(what: What<'_>, field: Field) -> What<'_> {
    match what {
        What::Byte(_, number) => What::Byte(field, number),
        What::Short(_, number) => What::Short(field, number),
        What::Int(_, number) => What::Int(field, number),
        What::Long(_, number) => What::Long(field, number),
        What::Count(_, number) => What::Count(field, number),
        What::Uuid(_, uuid) => What::Uuid(field, uuid),
        What::Text(_, text) => What::Text(field, text),
        What::Bytes(_, bytes) => What::Bytes(field, bytes),
        What::Bound(_, bound) => What::Bound(field, bound),
        What::Inet(_, address, port) => What::Inet(field, address, port),
        other => other,
    }
}

fn number_of(what: What<'_>) -> i64 {
    match what {
        What::Byte(_, number) => number.into(),
        What::Short(_, number) => number.into(),
        What::Int(_, number) => number.into(),
        What::Long(_, number) => number,
        What::Count(_, number) => number.into(),
        _ => 0,
    }
}

/// With another number, or another content.
fn with_value<'a>(random: &mut Random, what: What<'a>, number: i64) -> What<'a> {
    let bytes = random.of(&BYTES);
    match what {
        What::Byte(field, _) => What::Byte(field, number as u8),
        What::Short(field, _) => What::Short(field, number as u16),
        What::Int(field, _) => What::Int(field, number as i32),
        What::Long(field, _) => What::Long(field, number),
        What::Count(field, _) => What::Count(field, number as u32),
        What::Text(field, _) => What::Text(field, random.of(&TEXTS)),
        What::Bytes(field, _) => What::Bytes(field, random.of(&[None, Some(bytes)])),
        What::Bound(field, _) => What::Bound(field, random.of(&[Bound::Null, Bound::Unset, Bound::Bytes(bytes)])),
        What::Inet(field, address, _) => What::Inet(field, address, number as i32),
        What::Frame(frame) => What::Frame(changed_frame(random, frame, number)),
        What::TypeNode(_) => What::TypeNode(Kind::of(number as u8)),
        What::End(_) => What::End(number as u32),
        other => other,
    }
}

fn changed_frame(random: &mut Random, frame: Frame, number: i64) -> Frame {
    match random.below(4) {
        0 => Frame {
            opcode: Opcode::of(random.below(18) as u8),
            ..frame
        },
        1 => Frame {
            flags: 1 << random.below(8),
            ..frame
        },
        2 => Frame {
            stream: number as i16,
            ..frame
        },
        _ => Frame {
            response: !frame.response,
            length: number as u32,
            ..frame
        },
    }
}

/// The same field as another notation.
fn with_notation(random: &mut Random, what: What<'_>, field: Field) -> What<'static> {
    let number = number_of(what);
    match random.below(9) {
        0 => What::Byte(field, number as u8),
        1 => What::Short(field, number as u16),
        2 => What::Int(field, number as i32),
        3 => What::Long(field, number),
        4 => What::Count(field, number as u32),
        5 => What::Text(field, random.of(&TEXTS)),
        6 => What::Uuid(field, [number as u8; 16]),
        7 => What::Bytes(field, Some(random.of(&BYTES))),
        _ => What::Other(random.below(22) as u8),
    }
}

/// Changes one thing of an event, or how many there are.
fn change(random: &mut Random, events: &mut Vec<Event<'static>>) {
    let (i, j) = (random.below(events.len()), random.below(events.len()));
    let what = events[i].what;
    let field = field_of(what).unwrap_or(Field::Query);
    match random.below(8) {
        0 => events[i].what = with_notation(random, what, field),
        1 => events[i].what = with_field(what, Field::of(random.below(60) as u8)),
        2 => events[i].what = with_field(what, field_of(events[j].what).unwrap_or(field)),
        3 => {
            let number = random.of(&NUMBERS);
            events[i].what = with_value(random, what, number);
        }
        4 => {
            let number = number_of(what).wrapping_add(random.of(&[-1, 0, 1]));
            events[i].what = with_value(random, what, number);
        }
        5 => events.swap(i, j),
        6 if events.len() > 1 => drop(events.remove(i)),
        _ => events.insert(i, events[j]),
    }
}

/// Each list is refused, or read back as it was given.
#[test]
fn events_changed_at_random() {
    let (frames, mut random) = (frames(), Random(5));
    let mut answers = HashMap::new();
    for _ in 0..CHANGES {
        let frame = &frames[random.below(frames.len())];
        let mut events = frame.events.clone();
        for _ in 0..random.below(4) {
            change(&mut random, &mut events);
        }
        let answer = encode(&events);
        match &answer {
            Ok(bytes) => must_read(bytes, &events),
            Err(error) => must_name(error, &events),
        }
        *answers.entry(answer.err().map(|error| error.code)).or_insert(0) += 1;
    }
    println!("{answers:?}");
    for answer in [
        None,
        Some(Code::NoEvent),
        Some(Code::Misplaced),
        Some(Code::NoSuchFrame),
    ] {
        assert!(answers[&answer] > CHANGES / 100, "{answers:?}");
    }
    let others = [Code::NoEvent, Code::Misplaced, Code::NoSuchFrame, Code::Unbuilt];
    let known = |answer: &Option<Code>| answer.map_or(true, |code| others.contains(&code));
    assert!(answers.keys().all(known), "{answers:?}");
}

/// The error names an event, but where all are refused together.
fn must_name(error: &EncodeError, events: &[Event<'_>]) {
    let Some(index) = error.index else {
        return assert_eq!(error.code, Code::NoSuchFrame);
    };
    assert!(index < events.len());
    let is_misfit = error.code == Code::NoSuchFrame;
    // those before it have no fault of their own, but that one may not fit where an event is refused alone
    if let Err(before) = encode(&events[..index]) {
        let fits = before.index.is_none();
        assert!(
            fits || !is_misfit && before.code == Code::NoSuchFrame,
            "{before} and {error}"
        );
    }
    if is_misfit {
        assert_eq!(encode(&events[..=index]).as_ref(), Err(error));
    }
}

fn query() -> [Event<'static>; 5] {
    let header = Frame {
        response: false,
        flags: 0,
        stream: 7,
        opcode: Opcode::Query,
        length: 0,
    };
    let fields = [
        What::Frame(header),
        What::Text(Field::Query, "ä!"),
        What::Short(Field::Consistency, 1),
        What::Byte(Field::QueryFlags, 0),
        What::End(0),
    ];
    fields.map(|what| Event { at: 0, what })
}

#[test]
fn what_is_refused() {
    let What::Frame(header) = query()[0].what else {
        unreachable!()
    };
    let frame = |opcode| What::Frame(Frame { opcode, ..header });
    for (at, what, index, code, line) in [
        (2, What::Other(0), Some(2), Code::NoEvent, "event 2: NoEvent"),
        (2, What::Other(19), Some(2), Code::NoEvent, "event 2: NoEvent"),
        (
            2,
            What::Short(Field::Other(0), 1),
            Some(2),
            Code::NoEvent,
            "event 2: NoEvent",
        ),
        (
            2,
            What::Short(Field::Other(57), 1),
            Some(2),
            Code::NoEvent,
            "event 2: NoEvent",
        ),
        (0, frame(Opcode::Other(4)), Some(0), Code::NoEvent, "event 0: NoEvent"),
        (
            2,
            What::TypeNode(Kind::Other(0x15)),
            Some(2),
            Code::NoEvent,
            "event 2: NoEvent",
        ),
        (
            1,
            frame(Opcode::Options),
            Some(1),
            Code::Misplaced,
            "event 1: Misplaced",
        ),
        (0, What::End(0), Some(0), Code::Misplaced, "event 0: Misplaced"),
        (3, What::End(0), Some(4), Code::Misplaced, "event 4: Misplaced"),
        (
            1,
            What::Uuid(Field::TraceId, [0; 16]),
            Some(1),
            Code::NoSuchFrame,
            "event 1: NoSuchFrame",
        ),
        (
            3,
            What::Byte(Field::QueryFlags, 4),
            Some(4),
            Code::NoSuchFrame,
            "event 4: NoSuchFrame",
        ),
    ] {
        let mut events = query();
        events[at].what = what;
        let error = encode(&events).unwrap_err();
        assert_eq!(error, EncodeError { index, code }, "{what:?}");
        assert_eq!(error.to_string(), line);
    }
    let none = encode(&[]).unwrap_err();
    assert_eq!(
        none,
        EncodeError {
            index: None,
            code: Code::Misplaced
        }
    );
}

/// A frame that is refused is left out of what the composer writes, and a long one is written.
#[test]
fn a_composer_after_a_refusal() {
    let text = "x".repeat(300_000);
    let mut composer = Composer::new();
    let mut write = |events: &[Event<'_>]| {
        events.iter().for_each(|event| composer.take(event));
        composer.write()
    };
    let short = write(&query()).unwrap();
    assert_eq!(short, "\u{4}\0\0\u{7}\u{7}\0\0\0\u{a}\0\0\0\u{3}ä!\0\u{1}\0".as_bytes());
    assert_eq!(write(&query()[1..]).unwrap_err().index, Some(0));
    let mut long = query();
    long[1].what = What::Text(Field::Query, &text);
    assert_eq!(write(&long).map(|bytes| bytes.len()), Ok(9 + 4 + 300_000 + 3));
    assert_eq!(write(&query()), Ok(short));
}

#[test]
fn a_composer_may_be_shared_by_threads() {
    let mut composer = Composer::new();
    query().iter().for_each(|event| composer.take(event));
    let wanted = encode(&query());
    std::thread::scope(|scope| {
        for _ in 0..4 {
            scope.spawn(|| assert_eq!(composer.clone().write(), wanted));
        }
    });
    assert_eq!(std::thread::spawn(move || composer.write()).join().unwrap(), wanted);
}

#[test]
fn codes_are_those_of_the_library() {
    let names = std::fs::read_to_string(bindings().join("names.txt")).unwrap();
    let codes = names.lines().filter_map(|line| line.strip_prefix("CODE "));
    let words: HashMap<u32, &str> = codes
        .filter_map(|line| line.split_once(' '))
        .map(|(number, word)| (number.parse().unwrap(), word))
        .collect();
    for number in [5, 22, 34].into_iter().chain(38..=42).chain(44..=55) {
        assert_eq!(Code::of(number).to_string(), words[&number]);
        assert_eq!(Code::of(number).number(), number);
        assert!(!matches!(Code::of(number), Code::Other(_)));
    }
    assert_eq!(Code::of(300), Code::Other(300));
}
