//! Many connections in one thread over tokio, each a task: it executes `ROWS n` of the server `serve_rows` on each connection at once, and sums the
//! rows of all as their bytes come. A task waits for bytes only after it heard all that came, so a page is done at its last byte.
//!
//! `cargo run --release --features tokio --example tokio CONNECTIONS ROWS`
#![forbid(unsafe_code)]

#[path = "../package/examples/serve_rows.rs"]
mod serve_rows;

use cqlp::frame::{Message, QueryParams};
use cqlp::rows::RowSink;
use cqlp::wire::{ClientSide, FrameReader};
use cqlp::{Consistency, Decoder, Limits};
use std::net::{SocketAddr, TcpListener};
use tokio::io::{AsyncReadExt, AsyncWriteExt};
use tokio::net::TcpStream;
use tokio::task::LocalSet;

type Result<T> = std::result::Result<T, Box<dyn std::error::Error>>;

/// Sends what was asked, and waits for some bytes.
async fn exchange(stream: &mut TcpStream, side: &mut ClientSide<()>) -> Result<()> {
    let asked = side.outbox().bytes().len();
    stream.write_all(side.outbox().bytes()).await?;
    side.outbox().sent(asked);
    match stream.read(side.inbox().room()?).await? {
        0 => Err("the server closed the connection".into()),
        came => {
            side.inbox().filled(came);
            Ok(())
        }
    }
}

/// How many rows a page has, and the sum of its totals.
async fn sum(server: SocketAddr, text: String) -> Result<(u64, i64)> {
    let mut stream = TcpStream::connect(server).await?;
    let (mut side, mut decoder) = (ClientSide::new(1)?, Decoder::new(Limits::DEFAULT)?);
    side.ask(Message::startup(), ())?;
    while side.hear()?.is_none() {
        exchange(&mut stream, &mut side).await?;
    }
    match FrameReader::new()?.read(side.frame())?.message {
        Message::Ready => {}
        other => return Err(format!("no READY: {other:?}").into()),
    }
    side.ask(Message::query(&text, QueryParams::new(Consistency::One)), ())?;
    let (mut count, mut sum) = (0, 0);
    let mut rows = RowSink::new(|(_, total): (i32, i64)| {
        (count, sum) = (count + 1, sum + total);
        Ok(())
    });
    while side.hear_rows(&mut decoder, &mut rows)?.is_none() {
        exchange(&mut stream, &mut side).await?;
    }
    Ok((count, sum))
}

fn main() -> Result<()> {
    let words: Vec<String> = std::env::args().skip(1).collect();
    let [connections, rows] = &words[..] else { return Err("tokio CONNECTIONS ROWS".into()) };
    let (connections, text): (usize, _) = (connections.parse()?, format!("ROWS {rows}"));
    let listener = TcpListener::bind("127.0.0.1:0")?;
    let server = listener.local_addr()?;
    std::thread::spawn(move || serve_rows::listen(&listener).map_err(|fault| fault.to_string()));

    let runtime = tokio::runtime::Builder::new_current_thread().enable_io().build()?;
    let (count, sum) = LocalSet::new().block_on(&runtime, async {
        let tasks: Vec<_> = (0..connections).map(|_| tokio::task::spawn_local(sum(server, text.clone()))).collect();
        let (mut count, mut total) = (0, 0);
        for task in tasks {
            let one = task.await??;
            (count, total) = (count + one.0, total + one.1);
        }
        Result::Ok((count, total))
    })?;
    println!("{count} rows over {connections} connections, whose totals sum to {sum}");
    Ok(())
}
