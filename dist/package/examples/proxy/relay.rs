//! The bytes of a connection, passed on in both directions.

use super::observer::{Observer, Way};
use std::io::{self, ErrorKind, Read, Write};
use std::net::{Shutdown, TcpStream};
use std::sync::Mutex;
use std::thread;
use std::time::Instant;

/// How many bytes of a direction are held at a time.
pub const PIECE: usize = 16_384;

/// Passes on what a client and a node say to each other, and has the observer see it. Where the client ends its direction, so does the proxy,
/// and the node goes on. Where the node ends its own, also in the middle of a reply, the connection is over at once: nobody would answer
/// what the client sends then. Times are counted from `start`, in nanoseconds.
pub fn relay<W: Write + Send>(client: TcpStream, node: TcpStream, observer: Observer<W>, start: Instant) -> io::Result<()> {
    client.set_nodelay(true)?;
    node.set_nodelay(true)?;
    let observer = Mutex::new(observer);
    thread::scope(|scope| {
        scope.spawn(|| pass_on(&client, &node, Way::Requests, &observer, start));
        pass_on(&node, &client, Way::Responses, &observer, start);
    });
    if let Ok(mut observer) = observer.lock() {
        observer.finish();
    }
    Ok(())
}

/// How a direction ends.
enum Ending {
    /// The sender says no more.
    Over,
    /// The sender is gone.
    Gone,
    /// The receiver takes no more. What it said before may still be on its way.
    Unheard,
}

/// Passes one direction on. At its end the sockets are closed as far as they are of no more use.
fn pass_on<W: Write>(from: &TcpStream, to: &TcpStream, way: Way, observer: &Mutex<Observer<W>>, start: Instant) {
    let ending = copy(from, to, |piece| {
        // A fault of the observer stops nothing but the lines.
        if let Ok(mut observer) = observer.lock() {
            observer.hear(way, piece, start.elapsed().as_nanos() as u64);
        }
    });
    // A socket that is closed already may say so here: there is nothing left to do then.
    let _ = match (ending, way) {
        (Ending::Over, Way::Requests) => to.shutdown(Shutdown::Write),
        (Ending::Over, Way::Responses) | (Ending::Gone, _) => to.shutdown(Shutdown::Both).and(from.shutdown(Shutdown::Both)),
        (Ending::Unheard, _) => from.shutdown(Shutdown::Read),
    };
    if let Ok(mut observer) = observer.lock() {
        observer.end(way);
    }
}

/// Copies bytes until there are no more. Each piece is seen before it is passed on, so that a request is seen before its reply.
fn copy(mut from: &TcpStream, mut to: &TcpStream, mut see: impl FnMut(&[u8])) -> Ending {
    let mut piece = [0; PIECE];
    loop {
        let count = match from.read(&mut piece) {
            Ok(0) => return Ending::Over,
            Ok(count) => count,
            Err(fault) if fault.kind() == ErrorKind::Interrupted => continue,
            Err(_) => return Ending::Gone,
        };
        see(&piece[..count]);
        if to.write_all(&piece[..count]).is_err() {
            return Ending::Unheard;
        }
    }
}
