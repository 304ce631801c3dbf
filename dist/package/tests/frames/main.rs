//! Frames that are written, read back and built again, pages that are written cell by cell, cells, types and values. Each line of lines.txt
//! spells one out, and said.txt is what is said of them, the one after the other. To add one, add its line, and what is expected by hand and
//! not from what the package says.
//!
//! A line is `NAME | FRAME`. A frame is its flags, stream id, tracing id, warnings and payload, the name of its opcode, and the fields of its
//! message in the order of their definition:
//!
//! ```text
//! first_page | 00 0 - - - RESULT Rows 1 1 - k t 1 - c list int 1 1 list 3 int 1 null empty
//! ```
//!
//! Said is the answer of `encode`, how many bytes came, what keeps the frame from being written, the bytes, the lines of their events, the
//! verdict, how many rests `encode_from` wrote to a socket that stopped once after each number of bytes, and how many stops one makes that takes
//! a byte at a time, where each stop told how many bytes came, and all came in the end, each once; whether a `FrameBuilder` builds the same frame
//! again of the events; and how many cells of a page a `CellBuilder` builds again, each of its column's type, from the first one on.
//!
//! - `-` is a part that is not there, `null` and `unset` are as in the protocol, `""` is an empty text or no bytes.
//! - Numbers are decimal; flags, other single bytes and a tinyint have two hexadecimal digits; bytes, double, float, uuid and inet are
//!   hexadecimal; a boolean is `true` or `false`.
//! - A list begins with its count. `30*2` in a list is two items that come thirty times; `30*ab` is a text thirty times.
//! - Opcodes and kinds are named as in the lines of events, results `Void Rows SetKeyspace Prepared Change Unknown`. An entry of a batch by id
//!   begins with `id`. `class NAME` is a custom type, `bare KIND` a kind without its parameters.
//! - After the name, `--sum` asks for the answer, the number of events and the cells that are built again alone, and `--cut` for a target that
//!   fails after ten bytes.
//! - `type | TYPE` is what `type_len` says; `tuple 8*1 int` is one of eight ints.
//! - `value | TYPE VALUE` is what `fits` and `value_len` say; a type `-` is none.
//! - `cells | ROOM LENGTH PAGE CELLS` writes cells that are said to have this many bytes after a page that has none, to a socket that takes so
//!   many bytes. Said is what each call answers, the bytes that came, and the rests and stops of the whole page. `as TYPE VALUE` is a cell for
//!   `cell_as`.
//! - `bind | TYPE VALUE` has the bytes of the value that is bound in a QUERY, whether the decoder and `read_value` read it of them, and whether
//!   the cell of a page whose column is not told has them, by `raw_value` and by `cell_as`.
//! - `cell | EVENTS BYTES TYPE` is what a `CellBuilder` that may hold this many events and bytes answers to the end of a value between cells, to a
//!   part of a scalar, to a text of three bytes, and to an int twice, and the value of the type that it makes of what it took.
//! - `page | FIELDS DEPTH BYTES PART ROW FRAME` is what a `FrameBuilder` that may hold so much answers to the end of a frame, or to the first event
//!   that it refuses: where scalars come in parts of this many bytes, or whole at `-`, and where no cell of one row comes, or all at `-`.
//! - `pieces | N PAGE PAGE` is how many bytes the events of the second page's cells tell of, and whether `PageCells` writes its bytes again, N
//!   cells in a piece, as the first page, which has no cells.
//! - `lent | ROOM PAGE CELLS CELLS` writes a page by `encode_rows`, with the cells that are lent first and those that are lent again, to a socket
//!   that takes this many bytes. Said are the answer, and the bytes that came.
//! - `read |` and `write |` have a word for each call of a socket: the kind of its error, or the bytes that it gives, or as many as it takes. Said
//!   is what the call answers, how many failed, how many reads there were, the cause, and the buffer that was read to.
#![forbid(unsafe_code)]

mod again;
mod bound;
mod by_cell;
mod messages;
mod responses;
mod sockets;
mod values;
mod words;
mod written;

use cqlp::frame::{TypeTree, Value, fits, type_len, value_len};
use words::all_of;

#[test]
fn what_is_said_of_each_line() {
    let (mut wanted, mut count) = (include_str!("said.txt").split_inclusive('\n'), 0);
    for line in include_str!("lines.txt").lines() {
        let said = said_of(line);
        let own: String = wanted.by_ref().take(said.lines().count()).collect();
        assert_eq!(said, own, "{line}");
        count += usize::from(line.contains(" | "));
    }
    assert_eq!((wanted.next(), count), (None, 267));
}

/// What is said of a line. One without `|` is a heading.
fn said_of(line: &str) -> String {
    match line.split_once(" | ") {
        Some(("value", words)) => said_of_value(words),
        Some(("type", words)) => said_of_type(words),
        Some(("cells", words)) => by_cell::said_of_cells(words),
        Some(("lent", words)) => by_cell::said_of_lent(words),
        Some(("cell", words)) => again::said_of_cell(words),
        Some(("page", words)) => again::said_of_page(words),
        Some(("pieces", words)) => again::said_of_pieces(words),
        Some(("bind", words)) => bound::said(words),
        Some(("read", words)) => sockets::said_of_reads(words),
        Some(("write", words)) => sockets::said_of_writes(words),
        Some((name, words)) => written::said(name, words),
        None => format!("{line}\n"),
    }
}

/// Whether the value that some words spell out is one of the type before it, and how many bytes it has then.
fn said_of_value(line: &str) -> String {
    let (of, value): (Option<TypeTree>, Value) = all_of(line, |words| (words.option(), words.read()));
    format!("{line}: {} {:?}\n", fits(&value, of.as_ref()), value_len(&value, of.as_ref()))
}

/// How many bytes the option has of the type that some words spell out.
fn said_of_type(line: &str) -> String {
    let tree: TypeTree = all_of(line, |words| words.read());
    format!("{line}: {:?}\n", type_len(&tree))
}
