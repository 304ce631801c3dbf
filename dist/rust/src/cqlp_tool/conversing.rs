// Written by dist/erase from crates/cqlp_tool/src/conversing.rt.
//! A conversation over a connection of the program with itself.

use crate::cqlp_tool::connection::Connection;
use crate::cqlp_loop::{LoopFault, Socket, talk};
use crate::cqlp_note::{IoFault, OfStd, Target};
use crate::cqlp_render::conclude;
use crate::cqlp_text::Ending;
use crate::cqlp_text::exit_status::DONE;
use crate::kit_host::net::{Net, TcpListener, TcpStream};

/// Has a client and a server talk over a loopback connection, with this many queries, and writes the line of each reply
/// and a last one to `out`. A conversation that ends early has its fault line written to `err`. Answers the exit status,
/// and the two outputs.
pub fn converse<R, O: Target, E: Target>(rt: &R, queries: u16, mut out: O, err: E) -> (u8, O, E)
where
    R: Net<Listener = TcpListener, Stream = TcpStream>,
{
    match talk_with_itself(rt, queries, &mut out) {
        Ok(()) => (DONE, out, err),
        Err(fault) => {
            let (status, err) = conclude(ending_of(fault), err);
            (status, out, err)
        }
    }
}

/// Has the two ends of a new connection talk.
fn talk_with_itself<R, O: Target>(rt: &R, queries: u16, out: &mut O) -> Result<(), LoopFault>
where
    R: Net<Listener = TcpListener, Stream = TcpStream>,
{
    let Connection { near, far } = match Connection::new(rt) {
        Ok(connection) => connection,
        Err(IoFault) => return Err(LoopFault::SocketFault),
    };
    let mut client = Socket {
        source: OfStd::new(&near),
        target: OfStd::new(&near),
    };
    let mut server = Socket {
        source: OfStd::new(&far),
        target: OfStd::new(&far),
    };
    talk(queries, &mut client, &mut server, out)
}

/// How the command ends where a conversation ends early.
fn ending_of(fault: LoopFault) -> Ending {
    match fault {
        LoopFault::BadReply => Ending::BadReply,
        LoopFault::TooManyTurns => Ending::TooManyTurns,
        LoopFault::SocketFault => Ending::SocketFault,
        LoopFault::NoMemory => Ending::NoMemory,
        LoopFault::WriteFault => Ending::WriteFault,
    }
}
