//! What decoders say of pieces of streams. A line of lines.txt gives pieces to one decoder, and said.txt is what is said of all lines, the one
//! after the other. To add one, add its line, and what is expected by hand or from the definition, never from what the package says.
//!
//! A line is a name, words, and pieces in hexadecimal digits, each after `|`; `20x0009` repeats digits. A line without `|` is a heading. Said
//! are the events with the offsets where each begins and where the bytes used end, the refusal, and after each piece how the stream would end.
//!
//! - `--text=40`, `--cell=40`, `--entries=8`, `--depth=3` are limits; `--raw` asks for no types, `--parts` for long contents in parts;
//!   `--lenient` is a lenient reading.
//! - `--calls` asks after each call for the end so far and for what is held, `--counts` for the number of events and the ends of frames alone.
//! - `--skip` is a `SkippingDecoder`, which passes over each frame that it can. The stream is one piece, and read in pieces of each size and in
//!   two pieces cut at each place too.
//! - `--given=STREAM` gives the types of the last metadata of that stream before the first piece.
//! - `--memory` makes a decoder in memory of no bytes, of 16, of 32, and so on: said is each answer that is not the one before.
//!
//! A piece may be `give STREAM` or `take`, of such types, or begin with `1000 times`. What comes in one piece is also read in pieces of each size,
//! in two pieces cut at each place, and whole after the decoder has begun anew at each place; with `--counts` byte by byte and in pieces of 3 bytes
//! after one of 11. `differs` is said of another answer.
//!
//! No call of a decoder that was made is granted any memory.

mod gifts;
mod memory;
mod reading;
mod script;
mod skips;

use crate::digits::bytes_of;
use reading::Reading;
use script::{Script, Shows};

#[test]
fn what_is_said_of_each_line() {
    let (mut wanted, mut count) = (include_str!("said.txt").split_inclusive('\n'), 0);
    for line in include_str!("lines.txt").lines() {
        let said = said_of(line);
        let own: String = wanted.by_ref().take(said.lines().count()).collect();
        assert_eq!(said, own, "{line}");
        count += usize::from(line.contains('|'));
    }
    assert_eq!((wanted.next(), count), (None, 249));
}

/// What is said of a line.
fn said_of(line: &str) -> String {
    let Some((words, pieces)) = line.split_once('|') else { return format!("{line}\n") };
    let script = Script::read(words);
    let said = match script.shows {
        Shows::Memory => memory::answers(script.limits),
        Shows::Skips => skips::said(&script, &bytes_of(pieces)),
        Shows::Events | Shows::Calls | Shows::Counts => said_of_pieces(&script, pieces),
    };
    format!("== {}\n{said}", words.trim_end())
}

/// What a decoder says of the pieces, and where it says something else of a single one that comes in several.
fn said_of_pieces(script: &Script, pieces: &str) -> String {
    let (mut reading, mut said) = (Reading::new(script), String::new());
    for piece in pieces.split('|').map(str::trim) {
        said += &match gifts::exchanged(&mut reading.decoder, piece) {
            Some(said) => said,
            None => said_of_piece(&mut reading, piece),
        };
    }
    if !pieces.contains('|') {
        said += &reading::differences(script, &bytes_of(pieces));
    }
    said
}

/// What is said of a piece that comes once, or as often as it says.
fn said_of_piece(reading: &mut Reading, piece: &str) -> String {
    let (times, digits) = piece.split_once(" times ").unwrap_or(("1", piece));
    let bytes = bytes_of(digits);
    for _ in 0..times.parse().unwrap() {
        reading.take(&bytes);
    }
    reading.said_so_far()
}
