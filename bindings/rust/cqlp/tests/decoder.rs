//! Handles, limits, refusals, numbers, and what a decoder holds.

mod common;

use common::{bindings, bytes_of};
use cqlp::{
    check, BadLimit, Decoder, Event, Field, Frame, Kind, Limits, NewError, Opcode, Place, Reason, Refusal, Scalar,
    Verdict, What,
};
use std::collections::HashMap;
use std::sync::Mutex;

const OPTIONS: [u8; 9] = [0x04, 0, 0, 0, 0x05, 0, 0, 0, 0];
/// A response whose body would have a byte more than 256 MB.
const TOO_LONG: [u8; 9] = [0x84, 0, 0, 0, 0x08, 0x10, 0, 0, 1];

/// A page whose only cell is a list that says 2,147,483,647 elements.
fn too_many() -> Vec<u8> {
    bytes_of(
        "840000000800000031 00000002 00000001 00000001 0001 6b 0001 74 0001 63 0020 0009 00000001
         00000010 7fffffff 00000004 00000001 ffffffff",
    )
}

#[test]
fn nine_bytes() {
    let mut decoder = Decoder::new(Limits::default()).unwrap();
    let events: Vec<Event> = decoder.batch(&OPTIONS).collect();
    let frame = What::Frame(Frame {
        response: false,
        flags: 0,
        stream: 0,
        opcode: Opcode::Options,
        length: 0,
    });
    assert_eq!(
        events,
        [
            Event { at: 0, what: frame },
            Event {
                at: 9,
                what: What::End(0)
            }
        ]
    );
    assert_eq!(decoder.finish(), Verdict::Whole { bytes: 9 });
    assert_eq!(decoder.decode(&[]).next_event(), Ok(None));
}

#[test]
fn a_content_that_no_type_has() {
    let bytes = bytes_of(
        "840000010800000028 00000002 00000001 00000001 0000 0000 0001 6e 0009 00000002
         00000004 00000007 00000003 000102",
    );
    let refused = Refusal {
        at: 42,
        reason: Reason::BadSize,
    };
    assert_eq!(check(Limits::default(), &bytes), Ok(Verdict::Refused(refused)));
    let mut decoder = Decoder::lenient(Limits::default()).unwrap();
    let scalars: Vec<Scalar> = (decoder.batch(&bytes))
        .filter_map(|event| match event.what {
            What::Leaf(_, scalar) => Some(scalar),
            _ => None,
        })
        .collect();
    assert_eq!(scalars, [Scalar::Int(7), Scalar::Raw(&[0, 1, 2])]);
    assert_eq!(decoder.finish(), Verdict::Whole { bytes: 49 });
    assert!(matches!(
        Decoder::lenient(Limits {
            depth: 0,
            ..Limits::default()
        }),
        Err(NewError::BadLimit(BadLimit::Depth))
    ));
}

#[test]
fn a_refusal_stays() {
    let refusal = Refusal {
        at: 14,
        reason: Reason::BadLength,
    };
    let mut decoder = Decoder::new(Limits::default()).unwrap();
    let bytes = [OPTIONS, TOO_LONG].concat();
    let mut events = decoder.decode(&bytes);
    assert!(events.next_event().unwrap().is_some() && events.next_event().unwrap().is_some());
    assert_eq!(events.next_event(), Err(refusal));
    assert_eq!(events.next_event(), Err(refusal));
    for _ in 0..3 {
        assert_eq!(decoder.decode(&OPTIONS).next_event(), Err(refusal));
        assert_eq!(decoder.finish(), Verdict::Refused(refusal));
    }
    let error: Box<dyn std::error::Error> = refusal.into();
    assert_eq!(error.to_string(), "refused 14 BadLength");
}

#[test]
fn a_count_that_lies_holds_nothing() {
    let mut decoder = Decoder::new(Limits::default()).unwrap();
    let bytes = too_many();
    let batch = decoder.batch(&bytes);
    let entered = batch.clone().find(|event| {
        matches!(
            event.what,
            What::Enter {
                items: 2_147_483_647,
                ..
            }
        )
    });
    assert_eq!(entered.map(|event| event.at), Some(38));
    assert_eq!(
        batch.last().map(|event| event.to_string()),
        Some("54 Null 0 0 1".to_string())
    );
    assert_eq!(decoder.finish().to_string(), "refused 58 Overrun");
    let held = decoder.held();
    assert!(held.bytes + held.entries + held.levels < 100);
}

#[test]
fn held_is_bounded() {
    let head = bytes_of("0400000007 00000048 00000041");
    let limits = Limits {
        text: 65,
        ..Limits::default()
    };
    let mut decoder = Decoder::new(limits).unwrap();
    assert_eq!(decoder.batch(&head).count(), 1);
    for count in 0..64 {
        assert_eq!(decoder.batch(b"a").count(), 0);
        assert_eq!(decoder.held().bytes, count + 1);
    }
    let mut decoder = Decoder::new(Limits { text: 64, ..limits }).unwrap();
    let refused = Refusal {
        at: 9,
        reason: Reason::TooLong,
    };
    decoder.batch(&head).for_each(drop);
    assert_eq!(decoder.finish(), Verdict::Refused(refused));
}

#[test]
fn limits_out_of_range() {
    let default = Limits::default();
    type Set = fn(Limits, u32) -> Limits;
    let rows: [(BadLimit, u32, u32, Set); 4] = [
        (BadLimit::Text, 32, 1 << 24, |limits, text| Limits { text, ..limits }),
        (BadLimit::Cell, 32, 1 << 24, |limits, cell| Limits { cell, ..limits }),
        (BadLimit::Entries, 1, 65_536, |limits, entries| Limits {
            entries,
            ..limits
        }),
        (BadLimit::Depth, 1, 64, |limits, depth| Limits { depth, ..limits }),
    ];
    for (limit, least, greatest, set) in rows {
        for number in [least, greatest] {
            Decoder::new(set(default, number)).unwrap();
        }
        for number in [0, least - 1, greatest + 1, u32::MAX] {
            let refused = NewError::BadLimit(limit);
            assert_eq!(Decoder::new(set(default, number)).unwrap_err(), refused);
            assert_eq!(check(set(default, number), &OPTIONS), Err(refused));
        }
    }
}

#[test]
fn many_are_made_and_freed() {
    let resident = || {
        let pages = std::fs::read_to_string("/proc/self/statm").unwrap_or_default();
        pages
            .split(' ')
            .nth(1)
            .and_then(|word| word.parse().ok())
            .unwrap_or(0u64)
    };
    let make_and_free = |count| {
        for _ in 0..count {
            let mut decoder = Decoder::new(Limits::default()).unwrap();
            assert_eq!(decoder.batch(&OPTIONS[..4]).count(), 0);
        }
    };
    make_and_free(1000);
    let before = resident();
    make_and_free(100_000);
    assert!(resident() < before + 5000, "{before} pages, then {}", resident());
}

#[test]
fn a_decoder_may_go_to_another_thread() {
    let decoder = Mutex::new(Decoder::new(Limits::default()).unwrap());
    std::thread::scope(|scope| {
        for _ in 0..4 {
            scope.spawn(|| {
                for _ in 0..1000 {
                    assert_eq!(decoder.lock().unwrap().batch(&OPTIONS).count(), 2);
                }
            });
        }
    });
    assert_eq!(decoder.lock().unwrap().finish(), Verdict::Whole { bytes: 36_000 });
    let mut decoder = decoder.into_inner().unwrap();
    std::thread::spawn(move || decoder.batch(&OPTIONS[..1]).count())
        .join()
        .unwrap();
}

#[test]
fn a_real_page() {
    let bytes = std::fs::read(bindings().join("pages.bin")).unwrap();
    let mut decoder = Decoder::new(Limits::default()).unwrap();
    let mut texts = Vec::new();
    let mut events = decoder.decode(&bytes);
    while let Some(event) = events.next_event().unwrap() {
        let What::Leaf(
            Place {
                row,
                column: 2,
                level: 0,
            },
            Scalar::Varchar(text),
        ) = event.what
        else {
            continue;
        };
        texts.push((row, text.to_string()));
    }
    let wanted: Vec<_> = (0..3).map(|row| (row, format!("{row:016}"))).collect();
    assert_eq!(texts, wanted);
}

/// The numbers of one group in include/cqlp.h.
fn numbers(header: &str, group: &str) -> HashMap<String, u8> {
    let prefix = format!("#define CQLP_{group}_");
    let lines = header.lines().filter_map(|line| line.strip_prefix(&prefix));
    let pairs = lines.map(|line| {
        let mut words = line.split_whitespace();
        let (name, number) = (words.next().unwrap(), words.next().unwrap());
        let number = match number.strip_prefix("0x") {
            Some(digits) => u8::from_str_radix(digits, 16).unwrap(),
            None => number.parse().unwrap(),
        };
        (name.replace('_', "").to_lowercase(), number)
    });
    pairs.collect()
}

#[test]
fn names_are_those_of_the_header() {
    let header = std::fs::read_to_string(bindings().join("../include/cqlp.h")).unwrap();
    for (group, count, name_of) in [
        (
            "FIELD",
            56,
            (|number| Field::of(number).to_string()) as fn(u8) -> String,
        ),
        ("KIND", 26, |number| Kind::of(number).to_string()),
        ("REASON", 20, |number| Reason::of(number).to_string()),
    ] {
        let defined = numbers(&header, group);
        assert_eq!(defined.len(), count, "{group}");
        for (name, number) in defined {
            assert_eq!(name_of(number).to_lowercase(), name, "{group}");
        }
    }
    for number in 0..=u8::MAX {
        assert_eq!(Field::of(number).number(), number);
        assert_eq!(Kind::of(number).number(), number);
        assert_eq!(Reason::of(number).number(), number);
        assert_eq!(Opcode::of(number).number(), number);
    }
}
