//! A proxy that redacts a column: in each page that a node answers, of any size, the bytes of its texts and blobs are stars. All else passes on as it
//! came. A page is altered in place as its bytes pass, and its lengths stay, so that nothing of it is held.
//!
//! Pages need their metadata for that, so that in each request the flag that leaves it out is taken away.
//!
//! `cargo run --release --example redact PORT NODE_PORT COLUMN`
#![forbid(unsafe_code)]

use cqlp::wire::PageTrack;
use cqlp::{Decoder, Event, Field, Kind, Limits, Step, query_flag};
use std::io::{Read, Write};
use std::net::{Ipv4Addr, Shutdown, TcpListener, TcpStream};
use std::thread;

pub(crate) type Result<T> = std::result::Result<T, Box<dyn std::error::Error + Send + Sync>>;

/// One direction of a connection, whose bytes are altered as they pass.
pub(crate) struct Redactor {
    decoder: Decoder,
    track: PageTrack,
    column: String,
    /// How many bytes have passed of a field or a cell that is not whole.
    passed: usize,
}

impl Redactor {
    pub(crate) fn new(column: &str) -> Result<Redactor> {
        let decoder = Decoder::new(Limits::DEFAULT)?;
        Ok(Redactor { decoder, track: PageTrack::default(), column: column.to_string(), passed: 0 })
    }

    /// Whether the bytes that come next are of a cell to hide.
    fn hides(&self) -> bool {
        let is_text = |kind| matches!(kind, Kind::Ascii | Kind::Varchar | Kind::Blob);
        self.track.column().is_some_and(|column| column.name == self.column && is_text(column.kind))
    }

    /// Alters the next bytes.
    pub(crate) fn alter(&mut self, mut piece: &mut [u8]) -> Result<()> {
        loop {
            let (hides, mut asks) = (self.hides(), false);
            let (used, is_whole) = match self.decoder.next(piece) {
                Step::Event { used, event, .. } => {
                    self.track.take(&event)?;
                    asks = matches!(event, Event::Byte { field: Field::QueryFlags, .. });
                    (used, true)
                }
                Step::More { used } => (used, false),
                Step::Refused(refusal) => return Err(refusal.into()),
            };
            if self.track.is_bare() {
                return Err("a page without metadata".into());
            }
            let (bytes, rest) = piece.split_at_mut(used);
            if hides {
                // All but the first four bytes of a cell, which are its length.
                bytes[4_usize.saturating_sub(self.passed).min(used)..].fill(b'*');
            }
            if asks {
                bytes[0] &= !query_flag::SKIP_METADATA;
            }
            if !is_whole {
                self.passed += used;
                return Ok(());
            }
            (self.passed, piece) = (0, rest);
        }
    }
}

/// Passes on one direction until it ends.
fn relay(mut from: TcpStream, mut to: TcpStream, mut redactor: Redactor) -> Result<()> {
    let mut piece = vec![0; 1 << 16];
    loop {
        let count = from.read(&mut piece)?;
        if count == 0 {
            return Ok(to.shutdown(Shutdown::Write)?);
        }
        redactor.alter(&mut piece[..count])?;
        to.write_all(&piece[..count])?;
    }
}

#[allow(dead_code)]
fn main() -> Result<()> {
    let words: Vec<String> = std::env::args().skip(1).collect();
    let [port, node, column] = &words[..] else { return Err("redact PORT NODE_PORT COLUMN".into()) };
    let (listener, node): (_, u16) = (TcpListener::bind((Ipv4Addr::LOCALHOST, port.parse()?))?, node.parse()?);
    println!("listening on {}", listener.local_addr()?);
    loop {
        let (client, _) = listener.accept()?;
        let node = TcpStream::connect((Ipv4Addr::LOCALHOST, node))?;
        for (from, to) in [(client.try_clone()?, node.try_clone()?), (node, client)] {
            let redactor = Redactor::new(column)?;
            thread::spawn(move || {
                let ends = [from.try_clone(), to.try_clone()];
                if let Err(fault) = relay(from, to, redactor) {
                    eprintln!("redact: {fault}");
                    // Neither side waits for the other any more.
                    ends.iter().flatten().for_each(|end| _ = end.shutdown(Shutdown::Both));
                }
            });
        }
    }
}
