// Written by dist/erase from crates/cqlp_loop/src/conversation.rt.
//! The conversation.

use crate::cqlp_loop::client::Caller;
use crate::cqlp_loop::fault::LoopFault;
use crate::cqlp_loop::lines::print_done;
use crate::cqlp_loop::request::Request;
use crate::cqlp_loop::server::Host;
use crate::cqlp_note::{Source, Target};

/// An end of a connection: the bytes that come to it, and those that go from it.
pub struct Socket<S, T> {
    /// What the other end wrote.
    pub source: S,
    /// What the other end will read.
    pub target: T,
}

/// Has a client and a server talk over the two ends of one connection, and prints a line for each reply and a last one.
/// Each waits in turn for what the other wrote, so that one thread serves.
///
/// The client sends OPTIONS, STARTUP, and then this many queries, two at a time, of which the server answers the later one
/// first. Sections 4.1.3, 4.1.1 and 4.1.4 of `native_protocol_v4.spec`.
///
/// # Errors
///
/// [`LoopFault`] names what ends it early. What was printed until then is: whole lines, but where the output failed.
pub fn talk<CS: Source, CT: Target, SS: Source, ST: Target, O: Target>(
    count: u16,
    client: &mut Socket<CS, CT>,
    server: &mut Socket<SS, ST>,
    out: &mut O,
) -> Result<(), LoopFault>
    // What each turn of the script did, and why a fault ended it.

    // The same of what the client hears and what is printed.
{
    let mut caller = Caller::new()?;
    let mut host = Host::new()?;
    match play(count, &mut caller, &mut host, client, server, out) {
        Ok(()) => {}
        Err(fault) => return Err(fault),
    }
    print_done(count, out)
}

/// Plays the script, but for its last line.
fn play<CS: Source, CT: Target, SS: Source, ST: Target, O: Target>(
    count: u16,
    caller: &mut Caller,
    host: &mut Host,
    client: &mut Socket<CS, CT>,
    server: &mut Socket<SS, ST>,
    out: &mut O,
) -> Result<(), LoopFault> {
    set_up(caller, host, client, server, out)?;
    queries(count, caller, host, client, server, out)
}

/// Asks for the options, and opens the connection.
fn set_up<CS: Source, CT: Target, SS: Source, ST: Target, O: Target>(
    caller: &mut Caller,
    host: &mut Host,
    client: &mut Socket<CS, CT>,
    server: &mut Socket<SS, ST>,
    out: &mut O,
) -> Result<(), LoopFault> {
    exchange(Request::Options, caller, host, client, server, out)?;
    exchange(Request::Startup, caller, host, client, server, out)
}

/// Sends this many queries.
fn queries<CS: Source, CT: Target, SS: Source, ST: Target, O: Target>(
    count: u16,
    caller: &mut Caller,
    host: &mut Host,
    client: &mut Socket<CS, CT>,
    server: &mut Socket<SS, ST>,
    out: &mut O,
) -> Result<(), LoopFault> {
    for pair in 0..count / 2 {
        exchange_pair(caller, host, client, server, out)?;
    }
    if count % 2 == 0 {
        return Ok(());
    }
    exchange(Request::Query, caller, host, client, server, out)
}

/// Sends a request, has it answered, and prints the line of its reply.
fn exchange<CS: Source, CT: Target, SS: Source, ST: Target, O: Target>(
    request: Request,
    caller: &mut Caller,
    host: &mut Host,
    client: &mut Socket<CS, CT>,
    server: &mut Socket<SS, ST>,
    out: &mut O,
) -> Result<(), LoopFault> {
    caller.ask(request, &mut client.target)?;
    serve(request, host, server)?;
    caller.hear(&mut client.source, out)
}

/// Sends two queries, has them answered, the later one first, and prints the lines of their replies.
fn exchange_pair<CS: Source, CT: Target, SS: Source, ST: Target, O: Target>(
    caller: &mut Caller,
    host: &mut Host,
    client: &mut Socket<CS, CT>,
    server: &mut Socket<SS, ST>,
    out: &mut O,
) -> Result<(), LoopFault> {
    caller.ask(Request::Query, &mut client.target)?;
    caller.ask(Request::Query, &mut client.target)?;
    serve_pair(host, server)?;
    caller.hear(&mut client.source, out)?;
    caller.hear(&mut client.source, out)
}

/// Takes a request and answers it.
fn serve<S: Source, T: Target>(
    request: Request,
    host: &mut Host,
    server: &mut Socket<S, T>,
) -> Result<(), LoopFault> {
    let header = host.accept(&mut server.source)?;
    host.answer(request, header.stream, &mut server.target)
}

/// Takes two queries and answers the later one first.
fn serve_pair<S: Source, T: Target>(
    host: &mut Host,
    server: &mut Socket<S, T>,
) -> Result<(), LoopFault> {
    let first = host.accept(&mut server.source)?;
    let second = host.accept(&mut server.source)?;
    host.answer(Request::Query, second.stream, &mut server.target)?;
    host.answer(Request::Query, first.stream, &mut server.target)
}
