//! A proxy. It listens on an address, connects each client to a node, passes all bytes on as they are, and prints a line for each request
//! with its reply: the connection's number and the stream id, the request's opcode, the first words of its statement and its bytes, what came
//! back and its bytes, and the time from the request's first byte to the reply's last one:
//!
//! ```text
//! 1:1 QUERY "SELECT b FROM ks.t" 34 -> RESULT ROWS 2x1 1048622 9.215 ms
//! ```
//!
//! It reads headers and a few fields, and holds no frame: a page may be of any length, and a body may be compressed or one that a decoder
//! refuses. A connection of another version is passed on too, and a line says that it is not read. Whoever reads the lines has to go on reading:
//! while a line cannot be written, nothing is passed on.
//!
//! A connection has two threads, each with a piece of [`relay::PIECE`] bytes, and memory for the messages that wait for their replies, at most
//! [`observer::WAITING`] of some 250 bytes each, whatever the two sides send: at most 300 KB. How many connections there are the system decides.
//!
//! `cargo run --release --example proxy LISTEN NODE`, as in `127.0.0.1:9043 127.0.0.1:9042`
#![forbid(unsafe_code)]

mod line;
mod observer;
mod relay;

use observer::Observer;
use std::error::Error;
use std::net::{TcpListener, TcpStream};
use std::time::Instant;

fn main() -> Result<(), Box<dyn Error>> {
    let words: Vec<String> = std::env::args().skip(1).collect();
    let [listen, node] = &words[..] else {
        return Err("proxy LISTEN NODE".into());
    };
    let listener = TcpListener::bind(listen)?;
    println!("listening on {}", listener.local_addr()?);
    let start = Instant::now();
    for (number, client) in (1..).zip(listener.incoming()) {
        let node = node.clone();
        std::thread::spawn(move || {
            if let Err(fault) = client.map_err(Into::into).and_then(|client| serve(number, client, &node, start)) {
                eprintln!("connection {number}: {fault}");
            }
        });
    }
    Ok(())
}

/// Connects a client to the node, and passes on what the two say until both are done. Times are counted from `start`.
fn serve(number: u64, client: TcpStream, node: &str, start: Instant) -> Result<(), Box<dyn Error>> {
    let node = TcpStream::connect(node)?;
    let observer = Observer::new(number, std::io::stdout())?;
    relay::relay(client, node, observer, start)?;
    Ok(())
}
