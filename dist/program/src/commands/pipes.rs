//! Two pipes in memory.
use crate::cqlp_note::{IoFault, Source, Target};
use std::cell::{Cell, RefCell};
use std::collections::VecDeque;

/// The two ways of a connection. A call moves this many bytes at most, and after this many calls each fails. Once so many bytes came over both
/// ways, both are closed: each read is at its end.
pub struct Wires {
    up: RefCell<VecDeque<u8>>,
    down: RefCell<VecDeque<u8>>,
    most: usize,
    calls: Cell<usize>,
    open: Cell<usize>,
}

impl Wires {
    pub fn new(most: usize, calls: usize, open: usize) -> Wires {
        Wires { up: RefCell::default(), down: RefCell::default(), most, calls: Cell::new(calls), open: Cell::new(open) }
    }

    /// From the client to the server.
    pub fn up(&self) -> Pipe<'_> {
        Pipe { wires: self, bytes: &self.up }
    }

    /// From the server to the client.
    pub fn down(&self) -> Pipe<'_> {
        Pipe { wires: self, bytes: &self.down }
    }

    /// Counts a call, which may fail.
    fn call(&self) -> Result<(), IoFault> {
        let left = self.calls.get().checked_sub(1).ok_or(IoFault)?;
        self.calls.set(left);
        Ok(())
    }
}

/// An end of one of the ways.
pub struct Pipe<'a> {
    wires: &'a Wires,
    bytes: &'a RefCell<VecDeque<u8>>,
}

impl Source for Pipe<'_> {
    fn read(&mut self, room: &mut [u8]) -> Result<usize, IoFault> {
        self.wires.call()?;
        let (mut bytes, open) = (self.bytes.borrow_mut(), self.wires.open.get());
        let count = bytes.len().min(room.len()).min(self.wires.most).min(open);
        for (place, byte) in room.iter_mut().zip(bytes.drain(..count)) {
            *place = byte;
        }
        self.wires.open.set(open - count);
        Ok(count)
    }
}

impl Target for Pipe<'_> {
    fn write(&mut self, bytes: &[u8]) -> Result<usize, IoFault> {
        self.wires.call()?;
        let count = bytes.len().min(self.wires.most);
        self.bytes.borrow_mut().extend(&bytes[..count]);
        Ok(count)
    }
}
