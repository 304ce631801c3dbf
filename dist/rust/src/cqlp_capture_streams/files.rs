// Written by dist/erase from crates/cqlp_capture_streams/src/files.rt.
//! What takes the bytes of each direction of each connection.

use crate::cqlp_tcp_connections::Way;

/// The file of one direction of a connection.
#[derive(Clone, Copy)]
pub struct StreamFile {
    /// The number of the connection.
    pub number: u64,
    pub way: Way,
}

/// Why the bytes of a direction are not kept.
#[derive(Clone, Copy)]
pub enum FileFault {
    /// The file is there already, or cannot be made.
    CannotMake(StreamFile),
    CannotWrite(StreamFile),
    /// The file is written, and cannot be given its name.
    CannotKeep(StreamFile),
    NoMemory,
}

/// Files for the bytes of each direction of each connection. After an error nothing more is asked of them.
pub trait StreamFiles {
    /// Makes the two files of the connection with this number, which are empty.
    fn make(&mut self, number: u64) -> Result<(), FileFault>;

    /// Appends bytes to a file that was made and is not kept yet.
    fn append(&mut self, file: StreamFile, bytes: &[u8]) -> Result<(), FileFault>;

    /// Keeps the two files of a connection, which are whole.
    fn keep(&mut self, number: u64) -> Result<(), FileFault>;
}
