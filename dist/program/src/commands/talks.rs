//! Conversations of a client and a server over two pipes in memory.
use super::pipes::Wires;
use crate::cqlp_loop::{LoopFault, Socket, talk};
use crate::cqlp_note::{OfStd, Target};
use crate::digits::bytes_of;

/// How many bytes a call moves at most.
const MOST: usize = 4_096;

/// What comes of the conversation that these words ask for: `memory COUNT MOST FIRST` is over pipes of which a read or a write moves at most this
/// many bytes, and where the client hears these bytes first, in hexadecimal digits. `failing COUNT` is over pipes that fail at each of their calls in
/// turn. `closing COUNT` is over pipes that are closed after each number of bytes in turn.
pub fn said(words: &str) -> String {
    let words: Vec<&str> = words.split(' ').collect();
    let count = words[1].parse().unwrap();
    match words[0] {
        "memory" => over_memory(count, words[2].parse().unwrap(), words.get(3).unwrap_or(&"")),
        "failing" => over_failing(count),
        "closing" => over_closing(count),
        word => panic!("{word} is no conversation"),
    }
}

/// What is written, and why it ends there, unless all is said.
fn over_memory(count: u16, most: usize, first: &str) -> String {
    let wires = Wires::new(most, usize::MAX, usize::MAX);
    wires.down().write(&bytes_of(first)).unwrap();
    let (written, outcome) = conversation(count, &wires);
    let fault = outcome.map_or_else(|fault| format!("{fault}\n"), |()| String::new());
    String::from_utf8(written).unwrap() + &fault
}

/// Over two pipes that fail at their first call, at their second, and so on, until none of their calls fails.
fn over_failing(count: u16) -> String {
    let outcomes = (0..10_000).map(|calls| conversation(count, &Wires::new(MOST, calls, usize::MAX)).1);
    let other = outcomes.skip_while(|outcome| *outcome == Err(LoopFault::SocketFault)).next();
    format!("each failing call is a socket fault, and then {:?}\n", other.unwrap())
}

/// Over two pipes that are closed after no byte, after one, and so on, until all that is sent comes.
fn over_closing(count: u16) -> String {
    let (whole, _) = conversation(count, &Wires::new(MOST, usize::MAX, usize::MAX));
    let outcomes = (0..10_000).map(|open| (open, conversation(count, &Wires::new(MOST, usize::MAX, open))));
    let is_cut = |(written, outcome): &(Vec<u8>, _)| whole.starts_with(written) && *outcome == Err(LoopFault::SocketFault);
    let (bytes, (_, other)) = outcomes.skip_while(|(_, talk)| is_cut(talk)).next().unwrap();
    format!("{bytes} times a socket fault after a front of the text, and then {other:?}\n")
}

/// What is written of a conversation, and how it ends.
fn conversation(count: u16, wires: &Wires) -> (Vec<u8>, Result<(), LoopFault>) {
    let mut client = Socket { source: wires.down(), target: wires.up() };
    let mut server = Socket { source: wires.up(), target: wires.down() };
    let mut out = OfStd::new(Vec::new());
    let outcome = talk(count, &mut client, &mut server, &mut out);
    (out.inner, outcome)
}
