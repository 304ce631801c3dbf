//! Sockets, for one who holds a handle.
use super::rt::HostRuntime;
use std::io::{self, Read, Write};
use std::net::ToSocketAddrs;
pub use std::net::{IpAddr, Ipv4Addr, Ipv6Addr, SocketAddr};

pub trait Net {
    type Listener;
    type Stream;
}

impl Net for HostRuntime {
    type Listener = TcpListener;
    type Stream = TcpStream;
}

pub struct TcpListener(std::net::TcpListener);
pub struct TcpStream(std::net::TcpStream);

impl TcpListener {
    pub fn bind<R>(_: &R, at: impl ToSocketAddrs) -> io::Result<Self> {
        std::net::TcpListener::bind(at).map(TcpListener)
    }

    pub fn local_addr(&self) -> io::Result<SocketAddr> {
        self.0.local_addr()
    }

    pub fn accept(&self) -> io::Result<(TcpStream, SocketAddr)> {
        let (stream, from) = self.0.accept()?;
        Ok((TcpStream(stream), from))
    }
}

impl TcpStream {
    pub fn connect<R>(_: &R, to: impl ToSocketAddrs) -> io::Result<Self> {
        std::net::TcpStream::connect(to).map(TcpStream)
    }

    pub fn local_addr(&self) -> io::Result<SocketAddr> {
        self.0.local_addr()
    }

    pub fn set_nodelay(&self, on: bool) -> io::Result<()> {
        self.0.set_nodelay(on)
    }
}

impl Read for &TcpStream {
    fn read(&mut self, room: &mut [u8]) -> io::Result<usize> {
        (&self.0).read(room)
    }
}

impl Write for &TcpStream {
    fn write(&mut self, bytes: &[u8]) -> io::Result<usize> {
        (&self.0).write(bytes)
    }

    fn flush(&mut self) -> io::Result<()> {
        Ok(())
    }
}
