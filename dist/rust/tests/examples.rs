//! What the examples write that need no socket: a decoder of pieces, the cores of a client and of a server, a page cell by cell, and a value.
#![forbid(unsafe_code)]

#[path = "../examples/cells.rs"]
mod cells;
#[path = "../examples/cores.rs"]
mod cores;
#[path = "../examples/pieces.rs"]
mod pieces;

use std::error::Error;
use std::io::Write;

/// What an example writes.
fn written(example: impl FnOnce(&mut dyn Write) -> Result<(), Box<dyn Error>>) -> String {
    let mut out = Vec::new();
    example(&mut out).unwrap();
    String::from_utf8(out).unwrap()
}

/// A page of one row, whose cell is a list of two ints, and OPTIONS.
const STREAM: &[u8; 67] = b"\x84\0\0\0\x08\0\0\0\x31\0\0\0\x02\0\0\0\x01\0\0\0\x01\0\x01k\0\x01t\0\x01c\0\x20\0\x09\0\0\0\x01\0\0\0\x10\
    \0\0\0\x02\0\0\0\x04\0\0\0\x01\xff\xff\xff\xff\x04\0\0\0\x05\0\0\0\0";

#[test]
fn pieces_of_16_bytes() {
    assert_eq!(written(|out| pieces::report(&mut &STREAM[..], out)), "Seen { frames: 2, cells: 1 } Whole { bytes: 67 }\n");
    assert_eq!(written(|out| pieces::report(&mut &STREAM[..66], out)), "Seen { frames: 1, cells: 1 } Cut { frame_at: 58, bytes: 66 }\n");
}

#[test]
fn replies_in_another_order() {
    let wanted = "\
request 1 is answered: Options
request 2 is answered: Startup
request 4 is answered: Query
request 3 is answered: Query
cancelled: true, and then: Err(Full)
the reply to request 5 is dropped
and then: Ticket { id: 0, number: 7 }
";
    assert_eq!(written(cores::ask), wanted);
}

#[test]
fn answers_in_another_order() {
    let wanted = "\
Options under stream id 0
Options under stream id 0 is answered by Supported
Startup under stream id 0
Startup under stream id 0 is answered by Ready
Query under stream id 0
Query under stream id 1
refused under stream id 1: a request is open under this stream id
Query under stream id 1 is answered by Result
Query under stream id 0 is answered by Result
";
    assert_eq!(written(cores::serve), wanted);
}

#[test]
fn a_page_in_both_ways() {
    let wanted = "row 0: 1 tea\nrow 1: 2 salt\nFinished(Whole { bytes: 82 })\ncell by cell the same bytes: true\n";
    assert_eq!(written(cells::show_page), wanted);
}

#[test]
fn a_value() {
    assert_eq!(written(cells::show_value), "20 bytes, and the same value again: true\n");
}
