//! A client over a TCP connection. It opens it, reads tables by queries and by a prepared statement, page after page, sends a batch and requests that
//! are answered by errors, and prints each reply. Then it sends many queries, up to 256 of them before the first reply, and prints how many were
//! answered, with how many rows and how many in their order; how many a second, on standard error.
//!
//! `cargo run --release --example client PORT QUERIES`
#![forbid(unsafe_code)]

use cqlp::frame::{BatchEntry, Frame, Message, QueryParams};
use cqlp::rows::PageReader;
use cqlp::text::{opcode_name, render_rows};
use cqlp::wire::{ClientSide, FrameReader, Response};
use cqlp::{Consistency, Decoder, Limits, OfStd, bind, row};
use std::io::stdout;
use std::net::{Ipv4Addr, TcpStream};
use std::time::Instant;

type Result<T> = std::result::Result<T, Box<dyn std::error::Error>>;

/// How many requests may be open at a time.
const SLOTS: u16 = 256;

/// How many keys the table has.
const KEYS: u32 = 100;

/// How many rows a page has.
const PAGE: i32 = 10;

row! {
    /// A row of the table ks.t.
    struct Item { k: i32, c: i32, t: String, l: Option<Vec<i32>> }
}

/// A connection to a server. Each request carries a number to its reply.
struct Connection {
    stream: TcpStream,
    side: ClientSide<u32>,
    reader: FrameReader,
    pages: PageReader,
}

impl Connection {
    /// Waits for the next reply, and returns the number of its request.
    fn hear(&mut self) -> Result<u32> {
        match self.side.wait(&mut self.stream)? {
            Some(Response::Reply { carried, .. }) => Ok(carried),
            _ => Err("the connection ended before a reply".into()),
        }
    }

    /// Makes a request and prints its reply: its opcode, what an error or a warning says, and the rows of a page.
    fn show(&mut self, message: Message) -> Result<Message> {
        self.side.ask(message, 0)?;
        self.hear()?;
        let Frame { warnings, message, .. } = self.reader.read(self.side.frame())?;
        let words: String = warnings.into_iter().flatten().map(|text| format!(": {text}")).collect();
        match &message {
            Message::Error { code, message, .. } => println!("ERROR {code:04x}: {message}{words}"),
            _ => println!("{}{words}", opcode_name(message.opcode())),
        }
        render_rows(&mut Decoder::new(Limits::DEFAULT)?, &mut OfStd::new(self.side.frame()), OfStd::new(stdout()), u64::MAX);
        Ok(message)
    }

    /// Asks for the rows with this key by a prepared statement, and prints them page after page. The pages have no metadata.
    fn execute(&mut self, text: &str, key: i32) -> Result<()> {
        let Message::Prepared(statement) = self.show(Message::prepare(text))? else { return Err("no PREPARED result".into()) };
        self.pages.give(statement.result.specs.as_deref().unwrap_or_default())?;
        let mut state = None;
        loop {
            let params = params(state).with_values(bind!(&statement.specs; key)?).without_metadata().with_page_size(PAGE);
            self.side.ask(Message::execute(&statement.id, params), 0)?;
            self.hear()?;
            let rows = self.pages.rows(self.side.frame())?;
            state = rows.head().paging_state.clone();
            println!("RESULT\npage {} columns {} rows", rows.head().columns, rows.head().rows);
            for item in rows {
                let Item { k, c, t, l } = item?;
                println!("{k} | {c} | {t:?} | {}", l.map_or("null".to_string(), |list| format!("{list:?}")));
            }
            if state.is_none() {
                return Ok(());
            }
        }
    }

    /// All that is asked one after the other.
    fn converse(&mut self) -> Result<()> {
        for message in [Message::Options, Message::startup(), Message::register(&["STATUS_CHANGE"])] {
            self.show(message)?;
        }
        for text in ["SELECT * FROM system.local WHERE key='local'", "SELECT * FROM system.peers"] {
            self.show(Message::query(text, params(None)))?;
        }
        let mut state = None;
        loop {
            let reply = self.show(Message::query("SELECT * FROM ks.t WHERE k = 3", params(state).with_page_size(PAGE)))?;
            let Message::Rows(page) = reply else { break };
            let Some(next) = page.meta.paging.flatten() else { break };
            state = Some(next);
        }
        self.execute("SELECT * FROM ks.t WHERE k = ?", 7)?;
        let entry = BatchEntry::Text("INSERT INTO ks.t (k, c) VALUES (1, 1)".into(), vec![]);
        self.show(Message::batch(vec![entry], Consistency::One))?;
        self.show(Message::execute(b"none", params(None)))?;
        for text in ["SELECT * FROM ks.nothing", "BAD"] {
            self.show(Message::query(text, params(None)))?;
        }
        Ok(())
    }

    /// Sends queries, as many as may be open at a time before the first reply, and prints what came of them, and how fast.
    fn measure(&mut self, queries: u32) -> Result<()> {
        let (start, mut rows, mut in_order) = (Instant::now(), 0, 0);
        for first in (0..queries).step_by(SLOTS.into()) {
            let window = first..queries.min(first.saturating_add(SLOTS.into()));
            for number in window.clone() {
                self.side.ask(Message::query(format!("SELECT * FROM ks.t WHERE k = {}", number % KEYS), params(None)), number)?;
            }
            for place in window {
                in_order += u32::from(self.hear()? == place);
                rows += self.pages.rows(self.side.frame())?.collect::<std::result::Result<Vec<Item>, _>>()?.len();
            }
        }
        println!("{queries} queries, {rows} rows, {in_order} replies in order");
        eprintln!("{:.0} queries per second", f64::from(queries) / start.elapsed().as_secs_f64());
        Ok(())
    }
}

/// Parameters of the consistency ONE, with the paging state of the page before.
fn params(state: Option<Vec<u8>>) -> QueryParams {
    let params = QueryParams::new(Consistency::One);
    if let Some(state) = state { params.with_paging_state(state) } else { params }
}

fn main() -> Result<()> {
    let words: Vec<String> = std::env::args().skip(1).collect();
    let [port, queries] = &words[..] else { return Err("client PORT QUERIES".into()) };
    let stream = TcpStream::connect((Ipv4Addr::LOCALHOST, port.parse()?))?;
    stream.set_nodelay(true)?;
    let (side, reader, pages) = (ClientSide::new(SLOTS)?, FrameReader::new()?, PageReader::new(Limits::DEFAULT)?);
    let mut connection = Connection { stream, side, reader, pages };
    connection.converse()?;
    connection.measure(queries.parse()?)
}
