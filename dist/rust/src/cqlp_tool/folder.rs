// Written by dist/erase from crates/cqlp_tool/src/folder.rt.
//! A folder for the files of connections.

use crate::kit_host::prelude::{KitVec, String, Vec, format};
use crate::cqlp_capture_streams::{FileFault, StreamFile, StreamFiles};
use crate::cqlp_tcp_connections::Way;
use crate::kit_std::alloc::{AllocError};
use crate::kit_std::collections::BTreeMap;
use crate::kit_host::fs::{self, File, OpenOptions};
use std::io::{self, ErrorKind, Write};
use crate::kit_host::rt::Files;

/// How many bytes wait for a file before they are written.
const ROOM: usize = 65_536;

/// How much memory bytes that wait have before all are written.
const MOST: usize = 16_777_216;

/// Where files are made and written, each of which is open only for that long.
struct Site<'a, R: Files> {
    rt: &'a R,
    path: &'a str,
}

/// A folder that has a file for each direction of each connection. Until both are whole their names end in `.part`. The last bytes of a file wait until
/// there are more, so that no file stays open.
pub(crate) struct Folder<'a, R: Files> {
    site: Site<'a, R>,
    /// Bytes that wait, by the numbers of their connections.
    requests: BTreeMap<u64, Vec<u8>>,
    responses: BTreeMap<u64, Vec<u8>>,
    /// How much memory they have.
    held: usize,
}

/// Whether there is a folder with this path.
pub(crate) fn is_folder<R: Files>(rt: &R, path: &str) -> bool {
    match fs::metadata(rt, path) {
        Ok(metadata) => metadata.is_dir(),
        Err(_) => false,
    }
}

impl<R: Files> Site<'_, R> {
    /// The path of a file that is whole.
    fn path_of(&self, file: StreamFile) -> Result<String, AllocError> {
        let path = self.path;
        let number = file.number;
        let way = match file.way {
            Way::Requests => "requests",
            Way::Responses => "responses",
        };
        format!("{path}/{number}.{way}.bin")
    }

    /// The path of a file that is not whole yet.
    fn part_of(&self, file: StreamFile) -> Result<String, AllocError> {
        let path = self.path_of(file)?;
        format!("{path}.part")
    }

    /// Makes a file, which is empty.
    fn make_file(&self, file: StreamFile) -> Result<(), FileFault> {
        let Ok(path) = self.path_of(file) else {
            return Err(FileFault::NoMemory);
        };
        let Ok(part) = self.part_of(file) else {
            return Err(FileFault::NoMemory);
        };
        if !is_free(self.rt, &path) {
            return Err(FileFault::CannotMake(file));
        }
        match File::create_new(self.rt, &part) {
            Ok(_) => Ok(()),
            Err(_) => Err(FileFault::CannotMake(file)),
        }
    }

    /// Appends bytes to a file that was made.
    fn write(&self, file: StreamFile, bytes: &[u8]) -> Result<(), FileFault> {
        if bytes.is_empty() {
            return Ok(());
        }
        let Ok(part) = self.part_of(file) else {
            return Err(FileFault::NoMemory);
        };
        match append_to(self.rt, &part, bytes) {
            Ok(()) => Ok(()),
            Err(_) => Err(FileFault::CannotWrite(file)),
        }
    }

    /// Gives a file that is whole its name.
    fn keep_file(&self, file: StreamFile) -> Result<(), FileFault> {
        let Ok(path) = self.path_of(file) else {
            return Err(FileFault::NoMemory);
        };
        let Ok(part) = self.part_of(file) else {
            return Err(FileFault::NoMemory);
        };
        if !is_free(self.rt, &path) {
            return Err(FileFault::CannotKeep(file));
        }
        match fs::rename(self.rt, &part, &path) {
            Ok(()) => Ok(()),
            Err(_) => Err(FileFault::CannotKeep(file)),
        }
    }
}

/// Opens a file, and writes bytes at its end.
fn append_to<R: Files>(rt: &R, path: &str, bytes: &[u8]) -> io::Result<()> {
    let mut file = OpenOptions::new().append(true).open(rt, path)?;
    file.write_all(bytes)
}

/// Puts bytes behind those that wait for a file, and writes them once they are many. Says how much memory more they have.
fn put<R: Files>(
    site: &Site<'_, R>,
    waiting: &mut BTreeMap<u64, Vec<u8>>,
    file: StreamFile,
    bytes: &[u8],
) -> Result<usize, FileFault> {
    let Some(before) = waiting.get_mut(&file.number) else {
        return begin(site, waiting, file, bytes);
    };
    let room = before.capacity();
    let Ok(()) = before.kit_extend_from_slice(bytes) else {
        return Err(FileFault::NoMemory);
    };
    if before.len() >= ROOM {
        site.write(file, before)?;
        before.clear();
    }
    Ok(before.capacity().saturating_sub(room))
}

/// Has the first bytes wait for a file, unless they are many. Says how much memory they have.
fn begin<R: Files>(
    site: &Site<'_, R>,
    waiting: &mut BTreeMap<u64, Vec<u8>>,
    file: StreamFile,
    bytes: &[u8],
) -> Result<usize, FileFault> {
    if bytes.len() >= ROOM {
        site.write(file, bytes)?;
        return Ok(0);
    }
    let Ok(first) = Vec::from_slice(bytes) else {
        return Err(FileFault::NoMemory);
    };
    let room = first.capacity();
    match waiting.insert(file.number, first) {
        Ok(_) => Ok(room),
        Err(_) => Err(FileFault::NoMemory),
    }
}

/// Writes all bytes that wait for requests or for responses.
fn write_all<R: Files>(
    site: &Site<'_, R>,
    waiting: &mut BTreeMap<u64, Vec<u8>>,
    way: Way,
) -> Result<(), FileFault> {
    for _ in 0..waiting.len() {
        let Some((number, bytes)) = waiting.pop_first() else {
            return Ok(());
        };
        site.write(StreamFile { number, way }, &bytes)?;
    }
    Ok(())
}

/// Writes the bytes that wait for a file. Says how much memory they had.
fn write_last<R: Files>(
    site: &Site<'_, R>,
    waiting: &mut BTreeMap<u64, Vec<u8>>,
    file: StreamFile,
) -> Result<usize, FileFault> {
    match waiting.remove(&file.number) {
        Some(bytes) => {
            site.write(file, &bytes)?;
            Ok(bytes.capacity())
        }
        None => Ok(0),
    }
}

impl<'a, R: Files> Folder<'a, R> {
    pub(crate) fn new(rt: &'a R, path: &'a str) -> Self {
        Folder {
            site: Site { rt, path },
            requests: BTreeMap::new(),
            responses: BTreeMap::new(),
            held: 0,
        }
    }

    /// Makes both files of a connection.
    fn make_files(&self, number: u64) -> Result<(), FileFault> {
        self.site.make_file(requests_of(number))?;
        self.site.make_file(responses_of(number))
    }

    /// Puts bytes behind those that wait for a file. Where all that wait have much memory, all are written.
    fn append_to_file(&mut self, file: StreamFile, bytes: &[u8]) -> Result<(), FileFault> {
        let more = match file.way {
            Way::Requests => put(&self.site, &mut self.requests, file, bytes),
            Way::Responses => put(&self.site, &mut self.responses, file, bytes),
        };
        self.held = self.held.saturating_add(more?);
        if self.held > MOST {
            self.held = 0;
            write_all(&self.site, &mut self.requests, Way::Requests)?;
            write_all(&self.site, &mut self.responses, Way::Responses)?;
        }
        Ok(())
    }

    /// Writes what waits for both files of a connection, and gives them their names.
    fn keep_files(&mut self, number: u64) -> Result<(), FileFault> {
        let requests = write_last(&self.site, &mut self.requests, requests_of(number))?;
        let responses = write_last(&self.site, &mut self.responses, responses_of(number))?;
        self.held = self.held.saturating_sub(requests).saturating_sub(responses);
        self.site.keep_file(requests_of(number))?;
        self.site.keep_file(responses_of(number))
    }
}

fn requests_of(number: u64) -> StreamFile {
    StreamFile {
        number,
        way: Way::Requests,
    }
}

fn responses_of(number: u64) -> StreamFile {
    StreamFile {
        number,
        way: Way::Responses,
    }
}

/// Whether nothing has this path.
fn is_free<R: Files>(rt: &R, path: &str) -> bool {
    match fs::symlink_metadata(rt, path) {
        Ok(_) => false,
        Err(error) => error.kind() == ErrorKind::NotFound,
    }
}

impl<R: Files> StreamFiles for Folder<'_, R> {
    fn make(&mut self, number: u64) -> Result<(), FileFault> {
        match self.make_files(number) {
            Ok(()) => Ok(()),
            Err(fault) => Err(fault),
        }
    }

    fn append(&mut self, file: StreamFile, bytes: &[u8]) -> Result<(), FileFault> {
        match self.append_to_file(file, bytes) {
            Ok(()) => Ok(()),
            Err(fault) => Err(fault),
        }
    }

    fn keep(&mut self, number: u64) -> Result<(), FileFault> {
        match self.keep_files(number) {
            Ok(()) => Ok(()),
            Err(fault) => Err(fault),
        }
    }
}
