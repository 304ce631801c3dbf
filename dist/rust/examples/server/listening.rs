//! The connections of a listener, each in a thread of its own.

use super::connection::{Connection, Result};
use super::node::Node;
use std::io::{self, Read};
use std::net::{Shutdown, TcpListener, TcpStream};
use std::sync::Arc;
use std::thread;
use std::time::Duration;

/// How many connections may be open at a time. The server closes one more at once.
pub const MOST_CONNECTIONS: usize = 256;

/// How many bytes after a refused request the server reads and drops, and how long it waits for each of them.
const DROPPED: u64 = 1_048_576;
const DROPPING: Duration = Duration::from_secs(1);

/// Serves this many connections, and returns when the last of them has ended.
pub fn listen(listener: &TcpListener, connections: usize, node: &Node) {
    let places = Arc::new(());
    thread::scope(|scope| {
        for (number, stream) in (1_u64..).zip(listener.incoming().filter_map(io::Result::ok).take(connections)) {
            let place = Arc::clone(&places);
            if Arc::strong_count(&places) > MOST_CONNECTIONS + 1 {
                continue;
            }
            let connection = move || {
                if let Err(fault) = serve(&stream, node) {
                    eprintln!("connection {number}: {fault}");
                }
                drop(place);
            };
            // Where there can be no more threads, the connection is closed.
            if let Err(fault) = thread::Builder::new().spawn_scoped(scope, connection) {
                eprintln!("connection {number}: {fault}");
            }
        }
    });
}

/// Serves a connection until its client ends it, or sends what is refused.
fn serve(stream: &TcpStream, node: &Node) -> Result<()> {
    stream.set_nodelay(true)?;
    Connection::new(stream, stream)?.serve(node).inspect_err(|_| finish(stream))
}

/// Ends a connection after the ERROR for a refused request. It does not close the socket of a client that still sends at once, since the system
/// would then drop the ERROR on its way.
fn finish(mut stream: &TcpStream) {
    let _ = stream.shutdown(Shutdown::Write);
    let _ = stream.set_read_timeout(Some(DROPPING));
    let _ = io::copy(&mut stream.by_ref().take(DROPPED), &mut io::sink());
}
