//! Fields, type options and cells, call by call: what a decoder says of each input, how many bytes of it are used, and how many bytes are held then.
#![forbid(unsafe_code)]

use crate::digits::bytes_of;
use Said::{Got, More, Refused};
use cqlp::{Address, BoundValue, Decoder, Event, Field, Kind, Limits, Reason, Refusal, Scalar, Step};

const LIMITS: Limits = Limits { text: 40, cell: 40, entries: 8, depth: 3, types: true, parts: false };

/// What a call says, with how many bytes of its input are used. An event and a refusal are at the end of the event before.
#[derive(Debug, PartialEq)]
enum Said {
    Got(usize, Event<'static>),
    More(usize),
    Refused(Reason),
}

/// A field: the header of its frame without the length, and what the body has before it.
type Place = (&'static str, &'static str);

const BYTE: Place = ("040000000d", "");
const SHORT: Place = ("0400000007", "00000000");
const INT: Place = ("8400000000", "");
const LONG: Place = ("0400000007", "00000000 0001 20");
const UUID: Place = ("8402000002", "");
const COUNT16: Place = ("0400000001", "");
const COUNT32: Place = ("8400000008", "00000002 00000004");
const TEXT16: Place = ("8400000003", "");
const TEXT32: Place = ("0400000009", "");
const BYTES16: Place = ("040000000a", "");
const BYTES32: Place = ("040000000f", "");
const BOUND: Place = ("0400000007", "00000000 0001 01 0001");
const INET: Place = ("840000000c", "000d 5354415455535f4348414e4745 0002 5550");
/// The type of a column, of a page of one row.
const OPTION: Place = ("8400000008", "00000002 00000001 00000001 0000 0000 0000");
/// The cell of a column whose type is not described.
const CELL: Place = ("8400000008", "00000002 00000004 00000001 00000001");

/// A call: its input, what is said of it, and how many bytes are held then.
type Call<'a> = (&'a str, Said, u32);

/// Makes these calls of a decoder that has come to this field, from which on the frame has room for so many bytes.
fn check(place: Place, room: u32, calls: &[Call<'_>]) {
    let (header, before) = (bytes_of(place.0), bytes_of(place.1));
    let stream = [&header[..], &(before.len() as u32 + room).to_be_bytes(), &before].concat();
    let (mut decoder, mut rest) = (Decoder::new(LIMITS).unwrap(), &stream[..]);
    while let Step::Event { used, .. } = decoder.next(rest) {
        rest = &rest[used..];
    }
    let (mut end, mut offset) = (stream.len() as u64, stream.len() as u64);
    for (number, (input, said, held)) in calls.iter().enumerate() {
        let input = bytes_of(input);
        let (is_said, used) = match (decoder.next(&input), said) {
            (Step::Event { at, used, event }, Got(wanted, value)) => ((at, used, event) == (end, *wanted, *value), used),
            (Step::More { used }, More(wanted)) => (used == *wanted, used),
            (Step::Refused(refusal), Refused(why)) => (refusal == Refusal { at: end, why: *why }, 0),
            _ => (false, 0),
        };
        assert!(is_said, "{place:?} with room for {room}, call {number}: not {said:?}");
        assert_eq!(decoder.held().bytes, *held, "{place:?} with room for {room}, call {number}");
        offset += used as u64;
        if matches!(said, Got(..)) {
            end = offset;
        }
    }
}

/// A field of each notation, and a byte that is none of it.
#[test]
fn in_one_piece() {
    let v6 = Address::V6([0, 0, 0, 0, 0, 0, 0, 0, 0, 0, 0, 0, 0, 0, 0, 1]);
    let uuid = [0, 1, 2, 3, 4, 5, 6, 7, 8, 9, 10, 11, 12, 13, 14, 15];
    let bound = |value| Event::Bound { field: Field::Value, value };
    let rows = [
        (BYTE, "ff 09", 1, Event::Byte { field: Field::BatchType, value: 255 }),
        (SHORT, "0102 09", 2, Event::Short { field: Field::Consistency, value: 258 }),
        (INT, "fffffffe 09", 4, Event::Int { field: Field::ErrorCode, value: -2 }),
        (LONG, "8000000000000001 09", 8, Event::Long { field: Field::Timestamp, value: -9_223_372_036_854_775_807 }),
        (UUID, "000102030405060708090a0b0c0d0e0f 09", 16, Event::Uuid { field: Field::TraceId, value: uuid }),
        (COUNT16, "ffff 09", 2, Event::Count { field: Field::Options, count: 65_535 }),
        (COUNT32, "7fffffff 09", 4, Event::Count { field: Field::Columns, count: 2_147_483_647 }),
        (TEXT16, "0002 c3a9 09", 4, Event::Text { field: Field::Class, text: "é" }),
        (TEXT32, "00000002 6869 09", 6, Event::Text { field: Field::Query, text: "hi" }),
        (BYTES16, "0001 c8 09", 3, Event::Bytes { field: Field::StatementId, bytes: Some(&[200]) }),
        (BYTES32, "00000001 c8 09", 5, Event::Bytes { field: Field::Token, bytes: Some(&[200]) }),
        (BYTES32, "ffffffff 09", 4, Event::Bytes { field: Field::Token, bytes: None }),
        (BYTES32, "80000000 09", 4, Event::Bytes { field: Field::Token, bytes: None }),
        (BOUND, "00000000 09", 4, bound(BoundValue::Bytes(&[]))),
        (BOUND, "ffffffff 09", 4, bound(BoundValue::Null)),
        (BOUND, "fffffffe 09", 4, bound(BoundValue::Unset)),
        (INET, "04 7f000001 00002352 09", 9, Event::Inet { field: Field::Address, address: Address::V4([127, 0, 0, 1]), port: 9042 }),
        (INET, "10 15x00 01 ffffffff 09", 21, Event::Inet { field: Field::Address, address: v6, port: -1 }),
        (CELL, "00000003 010203 09", 7, Event::Leaf { row: 0, column: 0, level: 0, scalar: Scalar::Raw(&[1, 2, 3]) }),
        (CELL, "00000000 09", 4, Event::Empty { row: 0, column: 0, level: 0 }),
    ];
    for (place, input, used, event) in rows {
        check(place, 1 << 27, &[(input, Got(used, event), 0)]);
    }
}

/// Fields that do not fit into their frame, that are too long, and that are none.
#[test]
fn refused() {
    let rows = [
        (BYTE, 0, "", Reason::Overrun),
        (SHORT, 1, "", Reason::Overrun),
        (INT, 3, "", Reason::Overrun),
        (LONG, 7, "", Reason::Overrun),
        (UUID, 15, "", Reason::Overrun),
        (INET, 0, "", Reason::Overrun),
        (TEXT16, 5, "0004", Reason::Overrun),
        (TEXT32, 5, "00000002", Reason::Overrun),
        (INET, 8, "04", Reason::Overrun),
        (CELL, 7, "00000004", Reason::Overrun),
        (TEXT16, 93, "0029", Reason::TooLong),
        (TEXT32, 93, "00000029", Reason::TooLong),
        (BYTES16, 93, "0029", Reason::TooLong),
        (BYTES32, 93, "00000029", Reason::TooLong),
        (BOUND, 93, "00000029", Reason::TooLong),
        (CELL, 93, "00000029", Reason::TooLong),
        (TEXT16, 93, "0002 c328", Reason::BadUtf8),
        (BOUND, 93, "fffffffd", Reason::BadValueLength),
        (INET, 9, "05", Reason::BadInet),
        (COUNT32, 93, "ffffffff", Reason::BadCount),
        (TEXT32, 93, "80000000", Reason::BadCount),
    ];
    for (place, room, input, why) in rows {
        check(place, room, &[(input, Refused(why), 0)]);
    }
}

/// A text whose bytes are held from the first one that comes alone.
#[test]
fn a_text_in_two_pieces() {
    let text = "00 00 00 06 61 c3 a9 62 63 64";
    let event = Event::Text { field: Field::Query, text: "aébcd" };
    for cut in 0..10 {
        let (front, back) = text.split_at((3 * cut).min(text.len()));
        let held = cut.saturating_sub(4) as u32;
        check(TEXT32, 93, &[(front, More(cut), held), (back, Got(10 - cut, event), if held == 0 { 0 } else { 6 })]);
    }
}

#[test]
fn in_several_pieces() {
    let address = Event::Inet { field: Field::Address, address: Address::V4([127, 0, 0, 1]), port: 9042 };
    check(INET, 93, &[("04 7f000001 0000", More(7), 0), ("2352 01", Got(2, address), 0)]);
    check(TEXT16, 93, &[("0003 ffff", More(4), 2), ("ff 09", Refused(Reason::BadUtf8), 0)]);
    // A list of ints: each option is an event.
    let [list, int] = [Kind::List, Kind::Int].map(Event::TypeNode);
    check(OPTION, 93, &[("0020 00", Got(2, list), 0), ("00", More(1), 0), ("09 07", Got(1, int), 0)]);
    let leaf = Event::Leaf { row: 0, column: 0, level: 0, scalar: Scalar::Raw(&[1, 2, 3]) };
    check(CELL, 7, &[("00000003 01", More(5), 1), ("0203 09", Got(2, leaf), 3), ("09", Got(0, Event::End { extra: 0 }), 3)]);
}
