//! Many connections in one thread, over sockets that do not wait: it executes `ROWS n` of the server `serve_rows` on each connection at once, and sums
//! the rows of all as their bytes come. A socket is read until it would wait, and the thread rests only where no socket had anything.
//!
//! std has no call that waits for several sockets, so the thread rests by the clock. Over mio, `rest` is `poll.poll(&mut events, None)`, and the rest is
//! the same; over tokio each connection is a task, whose `receive` and `send` are `read(inbox.room()?).await` with `filled`, and `write_all(..).await`.
//!
//! `cargo run --release --example poll PORT CONNECTIONS ROWS`
#![forbid(unsafe_code)]

use cqlp::frame::{Message, QueryParams};
use cqlp::rows::RowSink;
use cqlp::wire::{ClientSide, FrameReader};
use cqlp::{Consistency, Decoder, Limits, SinkFault};
use std::io::{ErrorKind, Result as IoResult};
use std::net::{Ipv4Addr, TcpStream};
use std::thread;
use std::time::Duration;

type Result<T> = std::result::Result<T, Box<dyn std::error::Error>>;

/// A row of which only the first two columns are read.
type Total = (i32, i64);

struct Task {
    stream: TcpStream,
    side: ClientSide<()>,
    decoder: Decoder,
    is_open: bool,
    is_done: bool,
}

impl Task {
    fn begin(port: u16) -> Result<Task> {
        let stream = TcpStream::connect((Ipv4Addr::LOCALHOST, port))?;
        stream.set_nonblocking(true)?;
        let (mut side, decoder) = (ClientSide::new(1)?, Decoder::new(Limits::DEFAULT)?);
        side.ask(Message::startup(), ())?;
        Ok(Task { stream, side, decoder, is_open: false, is_done: false })
    }

    /// Goes on until the socket would wait, or the page is whole. Answers whether anything came.
    fn turn<F: FnMut(Total) -> std::result::Result<(), SinkFault>>(&mut self, text: &str, rows: &mut RowSink<Total, F>) -> Result<bool> {
        let mut moved = false;
        while !self.is_done {
            // What is not taken now goes out later: the server may be waiting until something of its own is read.
            would_wait(self.side.outbox().send(&self.stream))?;
            match would_wait(self.side.inbox().receive(&self.stream))? {
                None => break,
                Some(0) => return Err("the server closed the connection".into()),
                Some(_) => moved = true,
            }
            if !self.is_open {
                let Some(_) = self.side.hear()? else { continue };
                match FrameReader::new()?.read(self.side.frame())?.message {
                    Message::Ready => self.is_open = true,
                    other => return Err(format!("no READY: {other:?}").into()),
                }
                self.side.ask(Message::query(text, QueryParams::new(Consistency::One)), ())?;
                continue;
            }
            self.is_done = self.side.hear_rows(&mut self.decoder, rows)?.is_some();
        }
        Ok(moved)
    }
}

/// None where a call would wait.
fn would_wait<T>(answer: IoResult<T>) -> IoResult<Option<T>> {
    match answer {
        Err(fault) if fault.kind() == ErrorKind::WouldBlock => Ok(None),
        answer => answer.map(Some),
    }
}

/// Where no socket had anything.
fn rest() {
    thread::sleep(Duration::from_millis(1));
}

fn main() -> Result<()> {
    let words: Vec<String> = std::env::args().skip(1).collect();
    let [port, connections, rows] = &words[..] else { return Err("poll PORT CONNECTIONS ROWS".into()) };
    let (port, connections): (u16, usize) = (port.parse()?, connections.parse()?);
    let text = format!("ROWS {rows}");
    let mut tasks = (0..connections).map(|_| Task::begin(port)).collect::<Result<Vec<_>>>()?;
    let mut sums = vec![(0_u64, 0_i64); connections];
    let mut sinks: Vec<_> = sums
        .iter_mut()
        .map(|(count, sum)| {
            RowSink::new(move |(_, total): Total| {
                (*count, *sum) = (*count + 1, *sum + total);
                Ok(())
            })
        })
        .collect();
    while tasks.iter().any(|task| !task.is_done) {
        let mut moved = false;
        for (task, sink) in tasks.iter_mut().zip(&mut sinks) {
            moved |= task.turn(&text, sink)?;
        }
        if !moved {
            rest();
        }
    }
    drop(sinks);
    let (count, sum) = sums.iter().fold((0, 0), |(count, sum), one| (count + one.0, sum + one.1));
    println!("{count} rows over {connections} connections, whose totals sum to {sum}");
    Ok(())
}
