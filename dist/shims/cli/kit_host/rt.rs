//! The runtime that `main` is given, and what it lets a function do.
use crate::kit_host::fs::OpenFile;
use crate::kit_std::string::{KitString, String};
use std::fs::File;
use std::io::{self, BufRead, IsTerminal, Read, Write};
use std::mem::ManuallyDrop;
use std::os::fd::FromRawFd;

#[derive(Clone, Copy)]
pub struct HostRuntime;

pub trait Print {
    fn print(&self, text: impl std::fmt::Display) -> io::Result<()> {
        io::stdout().write_fmt(format_args!("{text}"))
    }
}

pub trait Eprint {
    fn eprint(&self, text: impl std::fmt::Display) -> io::Result<()> {
        io::stderr().write_fmt(format_args!("{text}"))
    }
}

pub trait Files {
    type File: Read + Write + OpenFile;
    type Dir: Read;

    fn open(&self, path: &str) -> io::Result<Self::File>;

    fn open_dir(&self, path: &str) -> io::Result<Self::Dir>;

    fn create_new(&self, path: &str) -> io::Result<Self::File>;

    fn open_file(&self, how: &std::fs::OpenOptions, path: &str) -> io::Result<Self::File>;
}

impl Print for HostRuntime {}
impl Eprint for HostRuntime {}

impl HostRuntime {
    /// Standard input, output and error, each with no buffer.
    pub fn stdin(&self) -> Standard {
        Standard::of(0)
    }

    pub fn stdout(&self) -> Standard {
        Standard::of(1)
    }

    pub fn stderr(&self) -> Standard {
        Standard::of(2)
    }

    pub fn lines(&self) -> impl Iterator<Item = io::Result<String>> {
        io::stdin().lock().lines().map(move |line| Ok(<String as KitString>::from_str(&line?)?))
    }
}

/// A standard descriptor, which may be closed: a call is then a fault of its own.
pub struct Standard(ManuallyDrop<File>);

impl Standard {
    fn of(descriptor: i32) -> Standard {
        // Nothing of the program closes it, but to open a file in the place of standard input.
        Standard(ManuallyDrop::new(unsafe { File::from_raw_fd(descriptor) }))
    }

    pub fn is_terminal(&self) -> bool {
        self.0.is_terminal()
    }
}

impl Read for Standard {
    fn read(&mut self, room: &mut [u8]) -> io::Result<usize> {
        self.0.read(room)
    }
}

impl Write for Standard {
    fn write(&mut self, bytes: &[u8]) -> io::Result<usize> {
        self.0.write(bytes)
    }

    fn flush(&mut self) -> io::Result<()> {
        Ok(())
    }
}

/// How the program ends.
pub struct ExitCode(u8);

impl ExitCode {
    pub const SUCCESS: ExitCode = ExitCode(0);
    pub const FAILURE: ExitCode = ExitCode(1);
}

impl From<u8> for ExitCode {
    fn from(status: u8) -> ExitCode {
        ExitCode(status)
    }
}

/// What a `main` answers, as a status.
pub trait Status {
    fn status(self) -> i32;
}

impl Status for ExitCode {
    fn status(self) -> i32 {
        let _ = io::stdout().flush();
        self.0.into()
    }
}

impl Status for io::Result<()> {
    fn status(self) -> i32 {
        ExitCode(self.is_err().into()).status()
    }
}

#[allow(unused_macros)]
macro_rules! said_in_line {
    ($rt:expr; $($text:tt)*) => {{
        use $crate::kit_host::rt::Print as _;
        $rt.print(format_args!("{}\n", format_args!($($text)*)))
    }};
}

#[allow(unused_macros)]
macro_rules! said {
    ($rt:expr; $($text:tt)*) => {{
        use $crate::kit_host::rt::Print as _;
        $rt.print(format_args!($($text)*))
    }};
}

#[allow(unused_macros)]
macro_rules! said_of_fault {
    ($rt:expr; $($text:tt)*) => {{
        use $crate::kit_host::rt::Eprint as _;
        $rt.eprint(format_args!("{}\n", format_args!($($text)*)))
    }};
}
#[allow(unused_imports)]
pub(crate) use said;
#[allow(unused_imports)]
pub(crate) use said_in_line;
#[allow(unused_imports)]
pub(crate) use said_of_fault;
