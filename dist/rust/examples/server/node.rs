//! What a request is answered. All connections share the node, which never changes.

use super::page::{Columns, ONE_TABLE, Page, described, full_name};
use super::problem::Problem;
use super::statement::{Select, Statement};
use super::table::Table;
use super::{sample, system};
use cqlp::frame::{Frame, Message, Prepared, QueryParams};
use cqlp::memory::AllocError;

/// The flag of a request whose page need not describe its columns. Section 4.1.4 of `native_protocol_v4.spec`.
const SKIP_METADATA: u8 = 0x02;

/// The options that there are, each with its values.
const OPTIONS: [(&str, &[&str]); 3] = [("PROTOCOL_VERSIONS", &["4/v4"]), ("CQL_VERSION", &["3.4.4"]), ("COMPRESSION", &[])];

/// A node, with its tables.
pub struct Node {
    tables: Vec<Table>,
}

/// What a request is answered.
pub enum Reply<'a> {
    Frame(Frame),
    Page(Page<'a>),
}

impl Reply<'_> {
    /// The frame; of a page without its cells.
    pub fn frame(&self) -> &Frame {
        match self {
            Reply::Frame(frame) => frame,
            Reply::Page(page) => &page.frame,
        }
    }
}

impl Node {
    /// A node with the table `ks.t`.
    pub fn new() -> Result<Node, AllocError> {
        let mut tables = system::tables()?;
        tables.push(sample::table()?);
        Ok(Node { tables })
    }

    /// What the request under this stream id is answered.
    pub fn answer(&self, stream: i16, request: Message) -> Reply<'_> {
        let frame = |message| Ok(Reply::Frame(Frame::plain(stream, message)));
        let reply = match request {
            Message::Options => frame(supported()),
            Message::Startup(_) | Message::Register(_) => frame(Message::Ready),
            Message::Query { text, params } => self.query(&text, &params, stream),
            Message::Prepare(text) => self.prepare(&text).and_then(frame),
            Message::Execute { id, params } => self.execute(id, &params, stream),
            Message::Batch { entries, .. } => Ok(Reply::Frame(batch(entries.len(), stream))),
            _ => Err(Problem::protocol("a request that has no answer here")),
        };
        reply.unwrap_or_else(|problem| Reply::Frame(Frame::plain(stream, problem.into())))
    }

    fn query(&self, text: &str, params: &QueryParams, stream: i16) -> Result<Reply<'_>, Problem> {
        match Statement::parse(text, &self.tables)? {
            Statement::Use(keyspace) => Ok(Reply::Frame(Frame::plain(stream, Message::SetKeyspace(keyspace)))),
            Statement::Select(select) => page(select, params, stream, Columns::Described),
        }
    }

    /// The id of a prepared statement is its text, so that the node keeps nothing.
    fn prepare(&self, text: &str) -> Result<Message, Problem> {
        match Statement::parse(text, &self.tables)? {
            Statement::Select(select) if text.len() <= usize::from(u16::MAX) => Ok(Message::Prepared(prepared(text, &select)?)),
            _ => Err(Problem::invalid("a SELECT of at most 65,535 bytes can be prepared")),
        }
    }

    fn execute(&self, id: Vec<u8>, params: &QueryParams, stream: i16) -> Result<Reply<'_>, Problem> {
        let statement = std::str::from_utf8(&id).ok().and_then(|text| Statement::parse(text, &self.tables).ok());
        let Some(Statement::Select(select)) = statement else {
            return Err(Problem::unprepared(id));
        };
        let columns = if params.flags & SKIP_METADATA > 0 { Columns::Omitted } else { Columns::Described };
        page(select, params, stream, columns)
    }
}

/// The page that a request asks for.
fn page<'a>(mut select: Select<'a>, params: &QueryParams, stream: i16, columns: Columns) -> Result<Reply<'a>, Problem> {
    select.bind(params.values.as_ref().and_then(|values| values.first()).map(|(_, value)| value))?;
    Page::new(select, params, stream, columns).map(Reply::Page)
}

fn supported() -> Message {
    let options = OPTIONS.map(|(name, values)| {
        let values: Vec<_> = values.iter().map(|value| value.to_string()).collect();
        (name.to_string(), values)
    });
    Message::Supported(Vec::from(options))
}

/// The answer to a BATCH of this many statements, with a warning.
fn batch(statements: usize, stream: i16) -> Frame {
    let warning = format!("statements that changed nothing: {statements}");
    let mut frame = Frame { warnings: Some(vec![warning]), ..Frame::plain(stream, Message::Void) };
    frame.flags = frame.derived_flags();
    frame
}

fn prepared(text: &str, select: &Select) -> Result<Prepared, AllocError> {
    let (mut keys, mut specs) = (Vec::new(), Vec::new());
    if let Some((place, column)) = select.marker() {
        specs.push(column.spec()?);
        // The first column of a table is its partition key.
        keys.extend((place == 0).then_some(0));
    }
    Ok(Prepared {
        id: text.as_bytes().to_vec(),
        flags: ONE_TABLE,
        columns: specs.len() as u32,
        keys,
        table: Some(full_name(select.table)),
        specs,
        result: described(select)?,
    })
}
