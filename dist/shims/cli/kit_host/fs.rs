//! Files, for one who holds a handle.
use super::rt::{Files, HostRuntime};
pub use std::fs::Metadata;
use std::io::{self, Read, Write};

pub struct File(std::fs::File);

impl File {
    pub fn open<R: Files>(rt: &R, path: &str) -> io::Result<R::File> {
        rt.open(path)
    }

    pub fn create_new<R: Files>(rt: &R, path: &str) -> io::Result<R::File> {
        rt.create_new(path)
    }
}

/// How a file is opened.
pub struct OpenOptions(std::fs::OpenOptions);

impl OpenOptions {
    pub fn new() -> Self {
        OpenOptions(std::fs::OpenOptions::new())
    }

    pub fn append(&mut self, append: bool) -> &mut Self {
        self.0.append(append);
        self
    }

    pub fn open<R: Files>(&self, rt: &R, path: &str) -> io::Result<R::File> {
        rt.open_file(&self.0, path)
    }
}

pub fn metadata<R>(_: &R, path: &str) -> io::Result<Metadata> {
    std::fs::metadata(path)
}

pub fn symlink_metadata<R>(_: &R, path: &str) -> io::Result<Metadata> {
    std::fs::symlink_metadata(path)
}

pub fn rename<R>(_: &R, from: &str, to: &str) -> io::Result<()> {
    std::fs::rename(from, to)
}

/// What an open file says of itself.
pub trait OpenFile {
    fn metadata(&self) -> io::Result<Metadata>;
}

impl OpenFile for File {
    fn metadata(&self) -> io::Result<Metadata> {
        self.0.metadata()
    }
}

/// The names of a folder, each with a NUL behind it: a read gives one.
pub struct Names(std::fs::ReadDir);

impl Read for Names {
    fn read(&mut self, room: &mut [u8]) -> io::Result<usize> {
        let Some(entry) = self.0.next() else { return Ok(0) };
        let name = [entry?.file_name().as_encoded_bytes(), &[0]].concat();
        room[..name.len()].copy_from_slice(&name);
        Ok(name.len())
    }
}

impl Files for HostRuntime {
    type File = File;
    type Dir = Names;

    fn open(&self, path: &str) -> io::Result<File> {
        std::fs::File::open(path).map(File)
    }

    fn open_dir(&self, path: &str) -> io::Result<Names> {
        std::fs::read_dir(path).map(Names)
    }

    fn create_new(&self, path: &str) -> io::Result<File> {
        std::fs::File::create_new(path).map(File)
    }

    fn open_file(&self, how: &std::fs::OpenOptions, path: &str) -> io::Result<File> {
        how.open(path).map(File)
    }
}

impl Read for File {
    fn read(&mut self, room: &mut [u8]) -> io::Result<usize> {
        self.0.read(room)
    }
}

impl Write for File {
    fn write(&mut self, bytes: &[u8]) -> io::Result<usize> {
        self.0.write(bytes)
    }

    fn flush(&mut self) -> io::Result<()> {
        Ok(())
    }
}
