//! Many connections in one thread over mio: it executes `ROWS n` of the server `serve_rows` on each connection at once, and sums the rows of all
//! as their bytes come. The thread waits in one place, `poll`, and there only where no socket has anything: a page is done at its last byte.
//!
//! `cargo run --release --features mio --example mio CONNECTIONS ROWS`
#![forbid(unsafe_code)]

#[path = "../package/examples/serve_rows.rs"]
mod serve_rows;

use cqlp::frame::{Message, QueryParams};
use cqlp::rows::RowSink;
use cqlp::wire::{ClientSide, FrameReader};
use cqlp::{Consistency, Decoder, Limits, SinkFault};
use mio::net::TcpStream;
use mio::{Events, Interest, Poll, Token};
use std::io::{ErrorKind, Result as IoResult};
use std::net::{SocketAddr, TcpListener};

type Result<T> = std::result::Result<T, Box<dyn std::error::Error>>;

/// A row of which only the first two columns are read.
type Total = (i32, i64);

struct Task {
    stream: TcpStream,
    side: ClientSide<()>,
    decoder: Decoder,
    is_open: bool,
    is_done: bool,
}

impl Task {
    /// Connects, which goes on while others do: mio says when the socket may be written.
    fn begin(poll: &Poll, token: usize, server: SocketAddr) -> Result<Task> {
        let mut stream = TcpStream::connect(server)?;
        poll.registry().register(&mut stream, Token(token), Interest::READABLE | Interest::WRITABLE)?;
        let (mut side, decoder) = (ClientSide::new(1)?, Decoder::new(Limits::DEFAULT)?);
        side.ask(Message::startup(), ())?;
        Ok(Task { stream, side, decoder, is_open: false, is_done: false })
    }

    /// Goes on until the socket would wait, without which mio says nothing of it again, or the page is whole.
    fn turn<F: FnMut(Total) -> std::result::Result<(), SinkFault>>(&mut self, text: &str, rows: &mut RowSink<Total, F>) -> Result<()> {
        while !self.is_done {
            // What is not taken now goes out once the socket may be written.
            would_wait(self.side.outbox().send(&self.stream))?;
            match would_wait(self.side.inbox().receive(&self.stream))? {
                None => break,
                Some(0) => return Err("the server closed the connection".into()),
                Some(_) => {}
            }
            if !self.is_open {
                let Some(_) = self.side.hear()? else { continue };
                match FrameReader::new()?.read(self.side.frame())?.message {
                    Message::Ready => self.is_open = true,
                    other => return Err(format!("no READY: {other:?}").into()),
                }
                self.side.ask(Message::query(text, QueryParams::new(Consistency::One)), ())?;
                continue;
            }
            self.is_done = self.side.hear_rows(&mut self.decoder, rows)?.is_some();
        }
        Ok(())
    }
}

/// None where a call would wait, also for the connection.
fn would_wait<T>(answer: IoResult<T>) -> IoResult<Option<T>> {
    match answer {
        Err(fault) if matches!(fault.kind(), ErrorKind::WouldBlock | ErrorKind::NotConnected) => Ok(None),
        answer => answer.map(Some),
    }
}

fn main() -> Result<()> {
    let words: Vec<String> = std::env::args().skip(1).collect();
    let [connections, rows] = &words[..] else { return Err("mio CONNECTIONS ROWS".into()) };
    let (connections, text): (usize, _) = (connections.parse()?, format!("ROWS {rows}"));
    let listener = TcpListener::bind("127.0.0.1:0")?;
    let server = listener.local_addr()?;
    std::thread::spawn(move || serve_rows::listen(&listener).map_err(|fault| fault.to_string()));

    let mut poll = Poll::new()?;
    let mut tasks = (0..connections).map(|token| Task::begin(&poll, token, server)).collect::<Result<Vec<_>>>()?;
    let mut sums = vec![(0_u64, 0_i64); connections];
    let mut sinks: Vec<_> = sums
        .iter_mut()
        .map(|(count, sum)| {
            RowSink::new(move |(_, total): Total| {
                (*count, *sum) = (*count + 1, *sum + total);
                Ok(())
            })
        })
        .collect();
    let mut events = Events::with_capacity(64);
    while tasks.iter().any(|task| !task.is_done) {
        match poll.poll(&mut events, None) {
            Err(fault) if fault.kind() == ErrorKind::Interrupted => continue,
            answer => answer?,
        }
        for Token(token) in events.iter().map(mio::event::Event::token) {
            tasks[token].turn(&text, &mut sinks[token])?;
        }
    }
    drop(sinks);
    let (count, sum) = sums.iter().fold((0, 0), |(count, sum), one| (count + one.0, sum + one.1));
    println!("{count} rows over {connections} connections, whose totals sum to {sum}");
    Ok(())
}
