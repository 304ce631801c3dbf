//! A client that keeps many requests open: it prepares a statement, executes it so many times before the first reply, and reads the rows into
//! structs, whichever reply comes first. Its pages come without metadata. Then it executes the statement once for a page of so many rows, which a
//! sink sums as they come, so that nothing of the page is held. `serve_rows` is its server.
//!
//! `cargo run --release --example ask_rows PORT ROWS`
#![forbid(unsafe_code)]

use cqlp::frame::{Message, Prepared, QueryParams};
use cqlp::rows::{PageReader, RowSink};
use cqlp::wire::{ClientSide, FrameReader, Response};
use cqlp::{Consistency, Decoder, Limits, bind, row, table_of_specs};
use std::net::{Ipv4Addr, TcpStream};
use std::thread;

type Result<T> = std::result::Result<T, Box<dyn std::error::Error + Send + Sync>>;

/// How many requests are open at a time.
const OPEN: u16 = 128;

row! {
    #[derive(Debug)]
    struct Item { id: i32, total: i64, name: String, paid: Option<bool>, tags: Vec<String> }
}

struct Connection {
    stream: TcpStream,
    side: ClientSide<i32>,
    reader: FrameReader,
    pages: PageReader,
}

impl Connection {
    fn open(port: u16) -> Result<Connection> {
        let stream = TcpStream::connect((Ipv4Addr::LOCALHOST, port))?;
        stream.set_nodelay(true)?;
        let (side, pages) = (ClientSide::new(OPEN)?, PageReader::new(Limits::DEFAULT)?);
        let mut connection = Connection { stream, side, reader: FrameReader::new()?, pages };
        match connection.exchange(Message::startup())? {
            Message::Ready => Ok(connection),
            other => Err(format!("no READY: {other:?}").into()),
        }
    }

    /// Waits for the next reply, and returns the number of its request.
    fn wait(&mut self) -> Result<i32> {
        match self.side.wait(&mut self.stream)? {
            Some(Response::Reply { carried, .. }) => Ok(carried),
            _ => Err("the server closed the connection".into()),
        }
    }

    /// A request whose reply is wanted as a value.
    fn exchange(&mut self, message: Message) -> Result<Message> {
        self.side.ask(message, 0)?;
        self.wait()?;
        Ok(self.reader.read(self.side.frame())?.message)
    }

    fn prepare(&mut self, text: &str) -> Result<Prepared> {
        match self.exchange(Message::prepare(text))? {
            Message::Prepared(statement) => {
                self.pages.give(statement.result.specs.as_deref().ok_or("no columns")?)?;
                Ok(statement)
            }
            other => Err(format!("no PREPARED: {other:?}").into()),
        }
    }

    /// Asks for a page of so many rows, which comes without metadata.
    fn execute(&mut self, statement: &Prepared, rows: i32) -> Result<()> {
        let params = QueryParams::new(Consistency::One).with_values(bind!(&statement.specs; rows)?).without_metadata();
        self.side.ask(Message::execute(&statement.id, params), rows)?;
        Ok(())
    }

    /// The sum of the totals of a page of any size, which comes in pieces.
    fn sum(&mut self, statement: &Prepared, rows: i32) -> Result<(u32, i64)> {
        let columns = statement.result.specs.as_deref().unwrap_or_default();
        let (mut count, mut sum) = (0, 0);
        let mut sink = RowSink::new(|item: Item| {
            (count, sum) = (count + 1, sum + item.total);
            Ok(())
        });
        let mut decoder = Decoder::new(Limits::DEFAULT)?;
        sink.name_columns(columns)?;
        decoder.give(table_of_specs(columns)?)?;
        self.execute(statement, rows)?;
        self.side.wait_rows(&mut self.stream, &mut decoder, &mut sink)?;
        Ok((count, sum))
    }
}

/// Asks for many pages at once, and then for one of so many rows. Returns how many rows came of it, and the sum of their totals.
pub(crate) fn ask(port: u16, rows: i32) -> Result<(u32, i64)> {
    let mut connection = Connection::open(port)?;
    let statement = connection.prepare("ROWS 0")?;
    for number in 0..i32::from(OPEN) {
        connection.execute(&statement, number)?;
    }
    let (mut items, mut last) = (0, None);
    for _ in 0..OPEN {
        let wanted = connection.wait()?;
        let page = connection.pages.rows(connection.side.frame())?.collect::<std::result::Result<Vec<Item>, _>>()?;
        assert_eq!(page.len(), wanted as usize);
        (items, last) = (items + page.len(), page.into_iter().last().or(last));
    }
    println!("{items} rows of {OPEN} pages; the last {last:?}");
    println!("{}", bind!(&statement.specs; 7i64).unwrap_err());
    println!("{:?}", connection.exchange(Message::query("x", QueryParams::new(Consistency::One)))?);
    thread::spawn(move || connection.sum(&statement, rows)).join().expect("no panic")
}

#[allow(dead_code)]
fn main() -> Result<()> {
    let words: Vec<String> = std::env::args().skip(1).collect();
    let [port, rows] = &words[..] else { return Err("ask_rows PORT ROWS".into()) };
    let (count, sum) = ask(port.parse()?, rows.parse()?)?;
    println!("{count} rows, whose totals sum to {sum}");
    Ok(())
}
