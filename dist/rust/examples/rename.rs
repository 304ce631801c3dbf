//! A proxy that renames a keyspace in what clients ask: in the texts of QUERY, PREPARE and BATCH, `FROM.` becomes `TO.`. All else passes on as it came,
//! whatever its size and version.
//!
//! `cargo run --release --example rename PORT NODE_PORT FROM TO`
#![forbid(unsafe_code)]

use cqlp::wire::{AnyHeader, Arrival, Inbox, TextAlterer};
use cqlp::{Field, Opcode};
use std::io::{self, Read, Write};
use std::net::{Ipv4Addr, Shutdown, TcpListener, TcpStream};
use std::thread;

pub(crate) type Result<T> = std::result::Result<T, Box<dyn std::error::Error + Send + Sync>>;

/// The longest body that is altered, in bytes. Longer ones pass on as they came.
const LONGEST: u32 = 1 << 20;

/// The keyspace's name, with the point behind it, and the one that it gets.
#[derive(Clone)]
pub(crate) struct Names {
    pub(crate) from: String,
    pub(crate) to: String,
}

impl Names {
    /// The text of a query with the keyspace renamed; None where it does not name it.
    fn renamed(&self, field: Field, text: &str) -> Option<String> {
        (field == Field::Query && text.contains(&self.from)).then(|| text.replace(&self.from, &self.to))
    }
}

/// Whether a frame has texts of queries. Compressed frames, and those of other versions, pass on.
fn asks(header: &AnyHeader) -> bool {
    header.to_header().is_ok_and(|header| matches!(header.opcode, Opcode::Query | Opcode::Prepare | Opcode::Batch))
}

/// Passes on the requests of a client until it sends no more.
pub(crate) fn relay_requests(mut from: impl Read, mut to: impl Write, names: &Names) -> Result<()> {
    let (mut inbox, mut alterer) = (Inbox::new(LONGEST), TextAlterer::new(2 * LONGEST)?);
    while inbox.receive(&mut from)? > 0 {
        while let Some((arrival, bytes)) = inbox.next(asks) {
            let altered = match arrival {
                Arrival::Frame(_) => alterer.alter(bytes, |field, text| names.renamed(field, text))?,
                Arrival::Passing(_) => None,
            };
            to.write_all(altered.as_deref().unwrap_or(bytes))?;
        }
    }
    Ok(to.write_all(inbox.rest())?)
}

#[allow(dead_code)]
fn main() -> Result<()> {
    let words: Vec<String> = std::env::args().skip(1).collect();
    let [port, node, from, to] = &words[..] else { return Err("rename PORT NODE_PORT FROM TO".into()) };
    let names = Names { from: format!("{from}."), to: format!("{to}.") };
    let (listener, node): (_, u16) = (TcpListener::bind((Ipv4Addr::LOCALHOST, port.parse()?))?, node.parse()?);
    println!("listening on {}", listener.local_addr()?);
    loop {
        let (mut client, _) = listener.accept()?;
        let mut node = TcpStream::connect((Ipv4Addr::LOCALHOST, node))?;
        let (asking, asked, names) = (client.try_clone()?, node.try_clone()?, names.clone());
        thread::spawn(move || {
            if let Err(fault) = relay_requests(&asking, &asked, &names) {
                eprintln!("rename: {fault}");
            }
            _ = asked.shutdown(Shutdown::Write);
        });
        thread::spawn(move || {
            _ = io::copy(&mut node, &mut client);
            _ = client.shutdown(Shutdown::Both);
        });
    }
}
