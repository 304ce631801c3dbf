//! A server whose statement `ROWS n` answers a page of n rows, however many, which go out as they are made: little of a page is held. `ask_rows` is
//! its client.
//!
//! `cargo run --release --example serve_rows PORT`
#![forbid(unsafe_code)]

use cqlp::frame::{Frame, Message, Metadata, OwnedBound, Prepared, QueryParams, Spec, TypeTree};
use cqlp::wire::ServerSide;
use cqlp::{ErrorCode, Kind, query_flag};
use std::net::{Ipv4Addr, TcpListener, TcpStream};
use std::thread;

type Result<T> = std::result::Result<T, Box<dyn std::error::Error + Send + Sync>>;

fn columns() -> Vec<Spec> {
    let tags = TypeTree::list(Kind::Varchar);
    vec![
        Spec::new("id", Kind::Int),
        Spec::new("total", Kind::Bigint),
        Spec::new("name", Kind::Varchar),
        Spec::new("paid", Kind::Boolean),
        Spec::new("tags", tags),
    ]
}

fn row(n: u32) -> (i32, i64, String, Option<bool>, Vec<String>) {
    let tags = vec!["new".to_string(), format!("t{}", n % 10)];
    (n as i32, i64::from(n) * 3, format!("name of {n}"), (n % 7 != 0).then_some(n % 2 == 0), tags)
}

/// How many rows a statement or its id asks for.
fn rows_of(text: &[u8]) -> Option<u32> {
    std::str::from_utf8(text).ok()?.strip_prefix("ROWS ")?.parse().ok()
}

/// What a prepared statement is bound to.
fn bound(params: &QueryParams) -> Option<u32> {
    match params.values.as_deref()? {
        [(_, OwnedBound::Bytes(bytes))] => Some(u32::from_be_bytes(bytes[..].try_into().ok()?)),
        _ => None,
    }
}

fn answer(server: &mut ServerSide, stream: &TcpStream, Frame { stream: id, message, .. }: Frame) -> Result<()> {
    let reply = match message {
        Message::Startup(_) | Message::Register(_) => Message::Ready,
        Message::Options => Message::supported(&[("CQL_VERSION", &["3.4.5"]), ("COMPRESSION", &[])]),
        Message::Prepare(text) => {
            Message::Prepared(Prepared::of_table(text.as_bytes(), "shop", "item", &[0], vec![Spec::new("count", Kind::Int)], columns()))
        }
        Message::Query { text, .. } => match rows_of(text.as_bytes()) {
            Some(rows) => return page(server, stream, id, rows, false),
            None => Message::error(ErrorCode::SyntaxError, "no such query"),
        },
        Message::Execute { id: statement, params } => match rows_of(&statement).and(bound(&params)) {
            Some(rows) => return page(server, stream, id, rows, params.flags & query_flag::SKIP_METADATA > 0),
            None => Message::unprepared(&statement),
        },
        _ => Message::error(ErrorCode::ProtocolError, "not supported"),
    };
    Ok(server.answer(&Frame::plain(id, reply))?)
}

fn page(server: &mut ServerSide, stream: &TcpStream, id: i16, rows: u32, is_bare: bool) -> Result<()> {
    let specs = columns();
    let meta = if is_bare { Metadata::omitted(specs.len()) } else { Metadata::of_table("shop", "item", columns()) };
    server.send_rows(stream, &Frame::plain(id, Message::bare_rows(meta, rows)), &specs, (0..rows).map(row))
}

/// Serves connections, each in a thread of its own.
pub(crate) fn listen(listener: &TcpListener) -> Result<()> {
    for stream in listener.incoming() {
        let mut stream = stream?;
        stream.set_nodelay(true)?;
        let mut server = ServerSide::new(1 << 20)?;
        thread::spawn(move || {
            let served = server.serve(&mut stream, |server, stream, request| answer(server, stream, request));
            served.inspect_err(|fault| eprintln!("{fault}"))
        });
    }
    Ok(())
}

#[allow(dead_code)]
fn main() -> Result<()> {
    let port = std::env::args().nth(1).ok_or("serve_rows PORT")?.parse()?;
    let listener = TcpListener::bind((Ipv4Addr::LOCALHOST, port))?;
    println!("listening on {}", listener.local_addr()?);
    listen(&listener)
}
