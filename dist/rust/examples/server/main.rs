//! A server with the table `ks.t` in memory, to which drivers connect as they come:
//!
//! ```text
//! server PORT [CONNECTIONS]    serves on 127.0.0.1:PORT, a free port for 0, and ends after this many connections
//! server -                     answers the requests on standard input, on standard output
//! ```
//!
//! It answers OPTIONS, STARTUP and REGISTER; `SELECT` of all or some columns of a table, of all rows or those of `WHERE column = value`, in pages
//! of the size that the request asks for; PREPARE and EXECUTE; `USE`; and BATCH, which changes nothing and says so in a warning. `ks.t` has 100
//! keys of 25 rows each, of two ints, a text and a list; the tables of `system` and `system_schema` are those that drivers read. An ERROR answers
//! what it does not know. A frame of another version is answered by ERROR 000A, by which a driver tries version 4, and ends the connection, as do
//! bytes that are no request.
//!
//! Each connection has a thread of its own, so none waits for another. Whatever a client sends, its connection holds one request of at most
//! [`connection::LONGEST_BODY`] bytes and [`connection::MOST_FIELDS`] fields at a time, in less than 4 MiB. A page is written cell by cell while
//! the client takes it, and nothing more is read until then. At most [`listening::MOST_CONNECTIONS`] connections are open.
//!
//! `cargo run --release --example server 9042`
#![forbid(unsafe_code)]

mod connection;
mod listening;
mod node;
mod page;
mod problem;
mod sample;
mod statement;
mod system;
mod table;

use connection::Connection;
use node::Node;
use std::error::Error;
use std::io;
use std::net::{Ipv4Addr, TcpListener};

fn main() -> Result<(), Box<dyn Error + Send + Sync>> {
    let words: Vec<String> = std::env::args().skip(1).collect();
    let words: Vec<&str> = words.iter().map(String::as_str).collect();
    let (port, connections) = match words[..] {
        ["-"] => return Connection::new(io::stdin().lock(), io::stdout().lock())?.serve(&Node::new()?),
        [port] => (port.parse()?, usize::MAX),
        [port, connections] => (port.parse()?, connections.parse()?),
        _ => return Err("server PORT [CONNECTIONS], or server -".into()),
    };
    let listener = TcpListener::bind((Ipv4Addr::LOCALHOST, port))?;
    println!("listening on {}", listener.local_addr()?);
    listening::listen(&listener, connections, &Node::new()?);
    Ok(())
}
