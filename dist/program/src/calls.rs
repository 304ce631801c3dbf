//! Calls that the package does not export: which requests for memory each makes, and what it answers where they are refused; and scalars whose bytes
//! all lie at the front of the input.
use crate::cqlp_capture_prepared::{NewPreparedError, PreparedTypes};
use crate::cqlp_capture_rows::write_rows;
use crate::cqlp_capture_streams::StreamsLimits;
use crate::cqlp_cell::{CellReader, FrontScalar, front_scalar};
use crate::cqlp_grammar::{Event, Sink, SinkFault};
use crate::cqlp_kind::{Kind, Scalar};
use crate::cqlp_message::Frame;
use crate::cqlp_note::{Asked, Limits, NoMemory, OfStd, Partial};
use crate::cqlp_options::{CommandLine, NoTask};
use crate::cqlp_round_trip::{RoundTripError, write_and_read};
use crate::cqlp_statement_types::StatementTypes;
use crate::cqlp_type::{TypeReader, TypeTable};
use crate::heap::{measured, refusing};

const LIMITS: Limits = Limits { text: 128, cell: 64, entries: 8, depth: 3, types: true, parts: false };

#[derive(Debug, PartialEq)]
enum Answer {
    Granted,
    /// Nothing had changed.
    NoMemory,
    Other,
}

fn answer<T>(made: Result<T, NoMemory>) -> Answer {
    if made.is_ok() { Answer::Granted } else { Answer::NoMemory }
}

/// Memory for the lists, for a table, for the one that is kept, and for that of a page, in this order; without it for the one that is kept no types
/// are known.
fn prepared_types() -> Answer {
    let mut known = match PreparedTypes::new(1, 1) {
        Ok(known) => known,
        Err(NewPreparedError::NoMemory) => return Answer::NoMemory,
        Err(NewPreparedError::BadLimit) => return Answer::Other,
    };
    let Ok(table) = TypeTable::new(LIMITS.entries) else { return Answer::NoMemory };
    let kept = known.prepared(b"id", &table);
    known.executed(7, b"id");
    match (kept, known.types_for(7)) {
        (Ok(()), Ok(Some(_))) => Answer::Granted,
        (Ok(()), Err(NoMemory)) | (Err(NoMemory), Ok(None)) => Answer::NoMemory,
        _ => Answer::Other,
    }
}

/// Counts events.
struct Counts(u32);

impl Sink for Counts {
    fn take(&mut self, _: u64, _: &Event<'_>) -> Result<(), SinkFault> {
        self.0 += 1;
        Ok(())
    }
}

/// The frame is four events, of which none is handed out before all memory is there.
fn written_and_read(frame: &Frame) -> Answer {
    let mut sink = Counts(0);
    match (write_and_read(frame, LIMITS, &mut sink), sink.0) {
        (Ok(_), 4) => Answer::Granted,
        (Err(RoundTripError::NoMemory), 0) => Answer::NoMemory,
        _ => Answer::Other,
    }
}

/// Each request is refused, alone and with all after it: the call says so, asks for no more than it has to, and gives back what it took.
#[test]
fn memory_that_is_refused() {
    let frame = Frame::version_error(&[5, 0, 0, 0, 5, 0, 0, 0, 0]).unwrap();
    let calls: [(&str, u64, &dyn Fn() -> Answer); 5] = [
        ("Partial", 1, &|| answer(Partial::new(LIMITS.text))),
        ("TypeReader", 1, &|| answer(TypeReader::new(&LIMITS))),
        ("CellReader", 1, &|| answer(CellReader::new(&LIMITS))),
        ("PreparedTypes", 5, &prepared_types),
        ("write_and_read", 5, &|| written_and_read(&frame)),
    ];
    for (name, requests, call) in calls {
        for first in 1..8 {
            for last in [first, u64::MAX] {
                let ((said, made), _, kept) = measured(|| refusing(first, last, call));
                let wanted = if first <= requests { (Answer::NoMemory, first) } else { (Answer::Granted, requests) };
                assert_eq!(((said, made), kept), (wanted, 0), "{name} from {first} to {last}");
            }
        }
    }
}

/// A packet of IPv4 with a segment of a connection with a node at port 9042, as a record of a pcap file.
fn packet(port: u16, number: u32, is_response: bool, payload: &[u8]) -> Vec<u8> {
    let length = 40 + payload.len();
    let (ports, ends) = if is_response { ([9042, port], [2, 1]) } else { ([port, 9042], [1, 2]) };
    let record = [0, 0, length as u32, length as u32].map(u32::to_le_bytes).concat();
    let ip = [&[0x45, 0], &(length as u16).to_be_bytes()[..], &[0, 0, 0x40, 0, 64, 6, 0, 0, 10, 0, 0, ends[0], 10, 0, 0, ends[1]]].concat();
    let tcp = [&ports.map(u16::to_be_bytes).concat(), &number.to_be_bytes()[..], &[0, 0, 0, 0, 0x50, 0, 0xff, 0xff, 0, 0, 0, 0], payload].concat();
    [record, ip, tcp].concat()
}

fn frame(head: [u8; 5], body: &[u8]) -> Vec<u8> {
    [&head, &(body.len() as u32).to_be_bytes()[..], body].concat()
}

/// On one connection a statement with the id 69 and a column of ints is prepared, whose response comes in two pieces, and on the other one it is executed,
/// whose page describes no columns.
fn prepared_elsewhere() -> Vec<u8> {
    let types = b"\0\0\0\x04\0\x01i\0\0\0\x01\0\0\0\0\0\0\0\0\0\x01k\0\x01t\0\0\0\x01\0\0\0\x01\0\x01k\0\x01t\0\x01c\0\x09";
    let (execute, prepared) = (frame([4, 0, 0, 1, 0x0a], b"\0\x01i\0\x01\x02"), frame([0x84, 0, 0, 0, 8], types));
    let page = frame([0x84, 0, 0, 1, 8], b"\0\0\0\x02\0\0\0\x04\0\0\0\x01\0\0\0\x01\0\0\0\x04\0\0\0\x07");
    let header = [0xa1b2_c3d4_u32, 0x0004_0002, 0, 0, 0x0004_0000, 101].map(u32::to_le_bytes).concat();
    let packets = [packet(1, 1, false, &execute), packet(2, 1, true, &prepared[..20]), packet(2, 21, true, &prepared[20..]), packet(1, 1, true, &page)];
    [header, packets.concat()].concat()
}

/// The pages of one connection, of which another one has prepared the statement: each request for memory is refused, with all after it or alone. Then what was
/// written is a front of all, or less memory was asked for.
#[test]
fn rows_without_memory() {
    let file = prepared_elsewhere();
    let written = |first, last| {
        let (mut input, out, err) = (OfStd::new(&file[..]), OfStd::new(Vec::with_capacity(1_000)), OfStd::new(Vec::with_capacity(1_000)));
        let write = || write_rows(StreamsLimits::DEFAULT, &[9042], StatementTypes::new(), 1, &mut input, out, err);
        let (((status, out, err), requests), _, kept) = measured(|| refusing(first, last, write));
        let text = |output: OfStd<Vec<u8>>| String::from_utf8(output.into_inner()).unwrap();
        assert_eq!(kept, 0);
        (status, text(out), text(err), requests)
    };
    let (status, whole, said, requests) = written(u64::MAX, u64::MAX);
    assert_eq!((status, &whole[..]), (0, "1:1 0\npage 1 columns 1 rows\n7\n"), "{said}");
    for first in 1..=requests {
        for last in [first, u64::MAX] {
            let (status, out, said, asked) = written(first, last);
            let went_on = last == first && asked > requests && (status, &out) == (0, &whole);
            assert!(went_on || (status, &said[..]) == (3, "cqlp: no memory\n"), "from {first} to {last}: {said}");
            assert!(whole.starts_with(&out), "from {first} to {last}: {out}");
        }
    }
}

/// The last request of a command line with several files is for the paths behind the first; without it there is no memory, and no mistake.
#[test]
fn files_without_memory() {
    let parsed = || CommandLine::parse(&["capture", "a", "--json", "b", "c"]);
    let ((line, requests), _, kept) = measured(|| {
        let (line, requests) = refusing(u64::MAX, u64::MAX, parsed);
        (line.map(|line| matches!(line, CommandLine::Capture(options) if options.file == "a" && options.more[..] == ["b", "c"])), requests)
    });
    assert!(matches!((line, kept), (Ok(true), 0)));
    assert!(matches!(refusing(requests, requests, parsed).0, Err(NoTask::NoMemory)));
}

/// A scalar is found where its type has such a content, whole and within the limits, the frame has room for it, and it is there; of no value none is.
#[test]
fn scalars_at_the_front() {
    let limits = Limits { text: 64, cell: 64, entries: 8, depth: 3, types: true, parts: true };
    let long = [&[0, 0, 0, 65][..], &[b'x'; 65]].concat();
    let seven = [0, 0, 0, 4, 0, 0, 0, 7, 9];
    let found = Some(FrontScalar { used: 8, scalar: Scalar::Int(7) });
    let rows: [(Kind, u64, &[u8], _); 9] = [
        (Kind::Int, 8, &seven, found),
        (Kind::Int, 7, &seven, None),
        (Kind::Int, 8, &[0xff, 0xff, 0xff, 0xff, 0], None),
        (Kind::Int, 8, &[0, 0, 0, 0, 0], None),
        (Kind::Int, 8, &[0, 0, 0, 3, 0, 0, 0], None),
        (Kind::Int, 8, &[0, 0, 0, 4, 0, 0, 0], None),
        (Kind::Blob, 69, &long, None),
        (Kind::List, 8, &[0, 0, 0, 4, 0, 0, 0, 0], None),
        (Kind::Varchar, 6, &[0, 0, 0, 2, 0xc3, 0x28], None),
    ];
    for (kind, room, input, wanted) in rows {
        assert_eq!(front_scalar(&Asked::new(&limits, false), kind, room, input), wanted, "{kind:?} in {room} of {input:x?}");
    }
}
