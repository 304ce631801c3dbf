// Written by dist/erase from crates/cqlp_loop/src/request.rt.
//! The requests of the conversation, and their replies. `cqlp loop 3` sends OPTIONS, STARTUP and three times the query, in the
//! order of conversation.rt.

use crate::kit_host::prelude::{KitString, String, Vec, vec};
use crate::cqlp_loop::fault::LoopFault;
use crate::cqlp_encode::{EncodeError, PageError, PageWriter, encode};
use crate::cqlp_message::{Frame, Message, Metadata, QueryParams, Rows, Spec};
use crate::cqlp_note::{Opcode, Target};
use crate::cqlp_session::RequestKind;
use crate::cqlp_type::{Kind, TypeTree};
use crate::cqlp_value::{Atom, Value};
use crate::kit_std::alloc::{AllocError};

/// How many bytes the cell of a page has: an \[int\] for its length, and an int.
const CELL_LEN: u32 = 8;

/// A request of the conversation. Section 4.1 of `native_protocol_v4.spec`.
#[derive(Clone, Copy)]
pub enum Request {
    /// A question for the options that are there.
    Options,
    /// The opening of the connection.
    Startup,
    /// A query for a page of one row.
    Query,
}

impl Request {
    /// Its kind.
    pub fn kind(self) -> RequestKind {
        match self {
            Request::Options => RequestKind::Options,
            Request::Startup => RequestKind::Startup,
            Request::Query => RequestKind::Query,
        }
    }

    /// The opcode of its reply.
    pub fn reply(self) -> Opcode {
        match self {
            Request::Options => Opcode::Supported,
            Request::Startup => Opcode::Ready,
            Request::Query => Opcode::Result,
        }
    }

    /// Writes it on a stream.
    ///
    /// # Errors
    ///
    /// [`LoopFault::NoMemory`], before anything is written, and [`LoopFault::SocketFault`] where the target fails.
    pub fn write<W: Target>(
        self,
        stream: i16,
        target: &mut W,
    ) -> Result<(), LoopFault> {
        let message = match self.message() {
            Ok(message) => message,
            Err(AllocError) => return Err(LoopFault::NoMemory),
        };
        send(&plain(stream, message), target)
    }

    /// Writes its reply on its stream: a page cell by cell, any other message as a whole.
    ///
    /// # Errors
    ///
    /// [`LoopFault::NoMemory`], before anything is written, and [`LoopFault::SocketFault`] where the target fails.
    pub fn write_reply<W: Target>(
        self,
        stream: i16,
        target: &mut W,
    ) -> Result<(), LoopFault> {
        let message = match self.reply_head() {
            Ok(message) => message,
            Err(AllocError) => return Err(LoopFault::NoMemory),
        };
        let frame = plain(stream, message);
        match self {
            Request::Options => send(&frame, target),
            Request::Startup => send(&frame, target),
            Request::Query => send_page(&frame, target),
        }
    }
}

impl Request {
    fn message(self) -> Result<Message, AllocError> {
        match self {
            Request::Options => Ok(Message::Options),
            Request::Startup => {
                let version = (text("CQL_VERSION")?, text("3.0.0")?);
                Ok(Message::Startup(vec![version]?))
            }
            Request::Query => Ok(Message::Query {
                text: text("SELECT c FROM k.t")?,
                params: QueryParams {
                    consistency: 1,
                    flags: 0,
                    values: None,
                    page_size: None,
                    paging: None,
                    serial: None,
                    timestamp: None,
                },
            }),
        }
    }

    /// Its reply, a page without its cells.
    fn reply_head(self) -> Result<Message, AllocError> {
        match self {
            Request::Options => {
                let key = text("CQL_VERSION")?;
                let versions = vec![text("3.0.0")?]?;
                Ok(Message::Supported(vec![(key, versions)]?))
            }
            Request::Startup => Ok(Message::Ready),
            Request::Query => Ok(Message::Rows(page()?)),
        }
    }
}

/// The page that answers a query, without its cell.
fn page() -> Result<Rows, AllocError> {
    let table = (text("k")?, text("t")?);
    let spec = Spec {
        table: None,
        name: text("c")?,
        tree: TypeTree::Plain(Kind::Int),
    };
    let meta = Metadata {
        flags: 1,
        columns: 1,
        paging: None,
        table: Some(table),
        specs: Some(vec![spec]?),
    };
    Ok(Rows {
        meta,
        rows: 1,
        cells: Vec::new(),
    })
}

fn text(text: &str) -> Result<String, AllocError> {
    Ok(String::from_str(text)?)
}

/// A frame with this message alone.
fn plain(stream: i16, message: Message) -> Frame {
    Frame {
        flags: 0,
        stream,
        tracing: None,
        warnings: None,
        payload: None,
        message,
    }
}

/// Writes a page, its cell after all else.
fn send_page<W: Target>(frame: &Frame, target: &mut W) -> Result<(), LoopFault> {
    match write_page(frame, target) {
        Ok(_) => Ok(()),
        Err(PageError::Write { .. }) => Err(LoopFault::SocketFault),
        Err(_) => unreachable!(),
    }
}

/// The same, with what the writer answers.
fn write_page<W: Target>(frame: &Frame, target: &mut W) -> Result<u32, PageError> {
    let mut page = PageWriter::begin(frame, CELL_LEN, target)?;
    page.cell(&Value::Leaf(Atom::Int(7)), target)?;
    page.finish()
}

/// Writes a frame.
fn send<W: Target>(frame: &Frame, target: &mut W) -> Result<(), LoopFault> {
    match encode(frame, target) {
        Ok(_) => Ok(()),
        Err(EncodeError::Write { .. }) => Err(LoopFault::SocketFault),
        Err(EncodeError::Unfit(_)) => unreachable!(),
    }
}
