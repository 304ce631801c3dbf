//! What is written of a frame, and what is read back.

use super::again::{cells_again, frame_again};
use super::sockets::{Narrow, Stops, is_told};
use super::words::all_of;
use cqlp::frame::{AppendError, EncodeError, Frame, append, encode, encode_from};
use cqlp::text::{Ending, ending_line, render_events};
use cqlp::{Decoder, Event, Limits, OfStd, Outcome, Sink, SinkFault, run};

pub const LIMITS: Limits = Limits { text: 65_536, cell: 65_536, entries: 65_536, depth: 64, types: true, parts: false };

/// How many bytes the target takes that fails.
const CUT: usize = 10;

/// What is said of the frame that some words spell out. After some names `--sum` asks for the number of the events alone, and `--cut`
/// for a target that fails.
pub fn said(name: &str, line: &str) -> String {
    let frame = all_of(line, |words| words.read());
    let said = match name.split_once(" --") {
        Some((_, "sum")) => sum(&frame),
        Some((_, "cut")) => cut(&frame),
        _ => whole(&frame),
    };
    format!("== {name}\n{said}")
}

/// What is answered where there is room for all of a frame, and the bytes that came; the same where they are appended.
pub fn write(frame: &Frame) -> (Result<u32, EncodeError>, Vec<u8>) {
    let mut target = OfStd::new(Vec::new());
    let answer = encode(frame, &mut target);
    let bytes = target.into_inner();
    assert_eq!(appended(frame), (answer, bytes.clone()));
    assert_eq!(frame.measure().map_err(EncodeError::Unfit), answer);
    (answer, bytes)
}

/// What is answered where a frame is appended to other bytes, and the bytes that came behind these.
fn appended(frame: &Frame) -> (Result<u32, EncodeError>, Vec<u8>) {
    let mut bytes = vec![1, 2, 3];
    let answer = append(frame, &mut bytes).map_err(|error| match error {
        AppendError::Unfit(why) => EncodeError::Unfit(why),
        AppendError::NoMemory => panic!("no memory"),
    });
    let (before, came) = bytes.split_at(3);
    assert_eq!(before, [1, 2, 3]);
    (answer, came.to_vec())
}

/// The answer, the bytes, the lines of their events, the verdict, how many rests of the bytes are written after a stop, how many stops
/// a socket makes that takes one byte at a time, whether the frame is built again of its events, and how many cells of a page are.
fn whole(frame: &Frame) -> String {
    let (answer, bytes) = write(frame);
    let answered = answer_line(frame, answer, &bytes);
    if answer.is_err() {
        return answered;
    }
    let rests = (0..bytes.len()).filter(|room| stops(frame, &bytes, *room, usize::MAX) == 1).count();
    let stops = stops(frame, &bytes, 1, 1);
    let again = format!("{rests} rests, {stops} stops, {}\n", frame_again(frame, &bytes));
    [answered, digits_line(&bytes), events_lines(&bytes), again, cells_again(frame, &bytes)].concat()
}

/// The answer, how many events are read of the bytes, the verdict, and how many cells of a page are built again.
fn sum(frame: &Frame) -> String {
    let (answer, bytes) = write(frame);
    let answered = answer_line(frame, answer, &bytes);
    if answer.is_err() {
        return answered;
    }
    let mut events = 0;
    let outcome = tell_events(LIMITS, &bytes, |_| {
        events += 1;
        Ok(())
    });
    [answered, format!("{events} events\n"), verdict_line(outcome), cells_again(frame, &bytes)].concat()
}

/// What is answered where the target fails after ten bytes, and the bytes that came.
fn cut(frame: &Frame) -> String {
    let mut target = Narrow::new(CUT);
    let answer = encode(frame, &mut target);
    format!("{answer:?}\n{}", digits_line(&target.text))
}

/// What is answered, what keeps the frame from being written, and how many bytes came.
fn answer_line(frame: &Frame, answer: Result<u32, EncodeError>, bytes: &[u8]) -> String {
    let came = bytes.len();
    match frame.unfit() {
        None => format!("{answer:?}, {came} bytes\n"),
        Some(unfit) => format!("{answer:?}, unfit {unfit:?}, {came} bytes\n"),
    }
}

/// Bytes in hexadecimal digits.
pub fn digits_line(bytes: &[u8]) -> String {
    bytes.iter().map(|byte| format!("{byte:02X}")).chain(["\n".to_string()]).collect()
}

/// The lines of the events of these bytes, and of the verdict.
fn events_lines(bytes: &[u8]) -> String {
    let mut decoder = Decoder::new(LIMITS).unwrap();
    let (outcome, text) = render_events(&mut decoder, &mut OfStd::new(bytes), OfStd::new(Vec::new()), u64::MAX);
    String::from_utf8(text.into_inner()).unwrap() + &verdict_line(outcome)
}

fn verdict_line(outcome: Outcome) -> String {
    let Outcome::Finished(finish) = outcome else { return format!("{outcome:?}\n") };
    let mut line = OfStd::new(Vec::new());
    ending_line(Ending::Finished(finish), &mut line).unwrap();
    String::from_utf8(line.into_inner()).unwrap()
}

/// A sink that is a function.
struct Each<F>(F);

impl<F: FnMut(&Event<'_>) -> Result<(), SinkFault>> Sink for Each<F> {
    fn take(&mut self, _: u64, event: &Event<'_>) -> Result<(), SinkFault> {
        self.0(event)
    }
}

/// Tells of the events of these bytes; how the reading ends.
pub fn tell_events(limits: Limits, bytes: &[u8], take: impl FnMut(&Event<'_>) -> Result<(), SinkFault>) -> Outcome {
    let mut decoder = Decoder::new(limits).unwrap();
    run(&mut decoder, &mut OfStd::new(bytes), &mut Each(take), u64::MAX)
}

/// How often a socket stops that takes `first` bytes before it would block, and `later` bytes before each later time, where each
/// call goes on with what the one before told; 0 where one tells another number than came, or where not just these bytes have
/// come in the end.
fn stops(frame: &Frame, bytes: &[u8], first: usize, later: usize) -> u64 {
    let mut socket = Stops::socket(first, later);
    let mut answer = encode(frame, &mut socket);
    for _ in bytes {
        let Err(EncodeError::Write { written }) = answer else { break };
        if !is_told(&socket, written) {
            break;
        }
        answer = encode_from(frame, written, &mut socket);
    }
    let is_whole = answer == Ok(bytes.len() as u32) && socket.inner.text == bytes;
    if is_whole { socket.failures } else { 0 }
}
