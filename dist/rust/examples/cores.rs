//! The cores of a client that sends requests before those before them are answered, and of a server that answers in an order of its own. A driver
//! hands each the headers that a decoder gives as `Event::Frame`; here none has a body, and they come from the example.
#![forbid(unsafe_code)]

use cqlp::session::{Client, Reply, RequestKind, Server};
use cqlp::{Header, Opcode};
use std::error::Error;
use std::io::{Write, stdout};

type Done = Result<(), Box<dyn Error>>;

/// Says which request a response answers.
fn deliver(out: &mut dyn Write, client: &mut Client, stream: i16, opcode: Opcode) -> Done {
    let header = Header { response: true, flags: 0, stream, opcode, length: 0 };
    match client.reply(&header)? {
        Reply::Answer { ticket, kind } => writeln!(out, "request {} is answered: {kind:?}", ticket.number)?,
        Reply::Dropped { ticket } => writeln!(out, "the reply to request {} is dropped", ticket.number)?,
        Reply::ServerEvent => writeln!(out, "the server pushed an event")?,
    }
    Ok(())
}

/// A connection with two slots, from its first request on.
pub(crate) fn ask(out: &mut dyn Write) -> Done {
    let client = &mut Client::new(2)?;

    // OPTIONS is answered by SUPPORTED, and then STARTUP by READY.
    let options = client.begin(RequestKind::Options)?;
    deliver(out, client, options.id, Opcode::Supported)?;
    let startup = client.begin(RequestKind::Startup)?;
    deliver(out, client, startup.id, Opcode::Ready)?;

    // Two queries begin before either is answered. The second is answered first.
    let (first, second) = (client.begin(RequestKind::Query)?, client.begin(RequestKind::Query)?);
    deliver(out, client, second.id, Opcode::Result)?;
    deliver(out, client, first.id, Opcode::Result)?;

    // One of two queries is given up. Its stream id is free again only once its late reply has come.
    let (slow, _other) = (client.begin(RequestKind::Query)?, client.begin(RequestKind::Query)?);
    writeln!(out, "cancelled: {}, and then: {:?}", client.cancel(slow), client.begin(RequestKind::Query))?;
    deliver(out, client, slow.id, Opcode::Result)?;
    Ok(writeln!(out, "and then: {:?}", client.begin(RequestKind::Query)?)?)
}

/// Takes the header of a request that came. One that is refused changes nothing.
fn accept(out: &mut dyn Write, server: &mut Server, stream: i16, opcode: Opcode) -> Done {
    let header = Header { response: false, flags: 0, stream, opcode, length: 0 };
    match server.accept(&header) {
        Ok(kind) => writeln!(out, "{kind:?} under stream id {stream}")?,
        Err(refusal) => writeln!(out, "refused under stream id {stream}: {refusal}")?,
    }
    Ok(())
}

/// Answers the request under a stream id, which is free from then on.
fn answer(out: &mut dyn Write, server: &mut Server, stream: i16, opcode: Opcode) -> Done {
    let kind = server.answer(stream, opcode)?;
    Ok(writeln!(out, "{kind:?} under stream id {stream} is answered by {opcode:?}")?)
}

/// The server's side of such a connection: it refuses a query under an id that is taken, and answers the later of two first.
pub(crate) fn serve(out: &mut dyn Write) -> Done {
    let server = &mut Server::new(2)?;
    for (request, response) in [(Opcode::Options, Opcode::Supported), (Opcode::Startup, Opcode::Ready)] {
        accept(out, server, 0, request)?;
        answer(out, server, 0, response)?;
    }
    for stream in [0, 1, 1] {
        accept(out, server, stream, Opcode::Query)?;
    }
    for stream in [1, 0] {
        answer(out, server, stream, Opcode::Result)?;
    }
    Ok(())
}

#[allow(dead_code)]
fn main() -> Done {
    let mut out = stdout().lock();
    ask(&mut out)?;
    serve(&mut out)
}
