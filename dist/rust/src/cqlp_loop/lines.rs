// Written by dist/erase from crates/cqlp_loop/src/lines.rt.
//! What is printed.

use crate::kit_host::prelude::{format};
use crate::cqlp_loop::fault::LoopFault;
use crate::cqlp_decode::SinkFault;
use crate::cqlp_note::{Opcode, Target};
use crate::cqlp_session::Ticket;
use crate::cqlp_text::{opcode_name, put_text};
use crate::kit_std::alloc::{AllocError};

/// Prints the line of a reply to the request of this ticket.
pub fn print_reply<O: Target>(
    ticket: Ticket,
    opcode: Opcode,
    out: &mut O,
) -> Result<(), LoopFault> {
    let Ticket { id, number } = ticket;
    let name = opcode_name(opcode);
    match format!("reply {number} {id} {name}\n") {
        Ok(line) => print(&line, out),
        Err(AllocError) => Err(LoopFault::NoMemory),
    }
}

/// Prints the last line, of a conversation with this many queries.
pub fn print_done<O: Target>(count: u16, out: &mut O) -> Result<(), LoopFault> {
    match format!("done {count}\n") {
        Ok(line) => print(&line, out),
        Err(AllocError) => Err(LoopFault::NoMemory),
    }
}

fn print<O: Target>(line: &str, out: &mut O) -> Result<(), LoopFault> {
    match put_text(line, out) {
        Ok(()) => Ok(()),
        Err(SinkFault) => Err(LoopFault::WriteFault),
    }
}
