// Written by dist/erase from crates/cqlp_tool/src/connection.rt.
//! A connection of the program with itself.

use crate::cqlp_note::IoFault;
use std::io;
use crate::kit_host::net::{Ipv4Addr, Net, TcpListener, TcpStream};

/// The two ends of a connection over the loopback interface.
pub(crate) struct Connection {
    /// The end that connected.
    pub near: TcpStream,
    /// The end that was accepted.
    pub far: TcpStream,
}

impl Connection {
    /// Binds a port that is free, and connects to it.
    pub fn new<R>(rt: &R) -> Result<Connection, IoFault>
    where
        R: Net<Listener = TcpListener, Stream = TcpStream>,
    {
        match connect(rt) {
            Ok(connection) => Ok(connection),
            Err(_) => Err(IoFault),
        }
    }
}

fn connect<R>(rt: &R) -> io::Result<Connection>
where
    R: Net<Listener = TcpListener, Stream = TcpStream>,
{
    let listener = TcpListener::bind(rt, (Ipv4Addr::LOCALHOST, 0))?;
    let near = TcpStream::connect(rt, listener.local_addr()?)?;
    let (far, from) = listener.accept()?;
    // Another program may connect to the port first, and would have to be waited for.
    if from != near.local_addr()? {
        return Err(io::Error::from(io::ErrorKind::ConnectionRefused));
    }
    // Without this the second query of a pair would wait until the first is acknowledged.
    near.set_nodelay(true)?;
    far.set_nodelay(true)?;
    Ok(Connection { near, far })
}
