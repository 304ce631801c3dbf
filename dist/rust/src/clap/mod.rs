//! What the program's command line uses of clap's builder: subcommands, one positional argument each, which may have several words, flags, options with a
//! value. The words, the order of the checks and the texts are clap's; colours, short options but `-h` and `-V`, and all else that the program does
//! not use are left out. Written by hand, and not proved; dist/words compares it with the proved program.
use crate::kit_host::text::AsStr;
use crate::kit_std::alloc::AllocError;
use std::borrow::ToOwned;
use std::boxed::Box;
use std::fmt;
use std::ops::{Bound, RangeBounds};
use std::str::FromStr;
use std::string::String;
use std::vec::Vec;

mod texts;
mod words;

pub mod builder {
    pub use super::ValueParser;
}

pub mod error {
    pub use super::ErrorKind;
}

/// Why there are no matches, as far as the program tells the cases apart.
#[derive(Clone, Copy, Debug, PartialEq, Eq)]
pub enum ErrorKind {
    DisplayHelp,
    DisplayVersion,
    OutOfMemory,
    ValueValidation,
}

/// Why there are no matches. Its `Display` is the text for the user.
#[derive(Debug)]
pub struct Error {
    kind: ErrorKind,
    text: String,
}

impl Error {
    pub fn kind(&self) -> ErrorKind {
        self.kind
    }

    pub fn use_stderr(&self) -> bool {
        !matches!(self.kind, ErrorKind::DisplayHelp | ErrorKind::DisplayVersion)
    }
}

impl fmt::Display for Error {
    fn fmt(&self, f: &mut fmt::Formatter<'_>) -> fmt::Result {
        f.write_str(&self.text)
    }
}

impl From<AllocError> for Error {
    fn from(_: AllocError) -> Error {
        Error { kind: ErrorKind::OutOfMemory, text: String::new() }
    }
}

/// Numbers from one to another, of a type with a sign or without.
#[derive(Clone, Copy)]
pub struct ValueParser<'a> {
    least: i128,
    greatest: i128,
    is_signed: bool,
    of: core::marker::PhantomData<&'a ()>,
}

impl ValueParser<'_> {
    /// The numbers of a type from 0: those of 32 bits are read with a sign, as clap does.
    pub fn unsigned(bits: u32) -> Self {
        ValueParser { least: 0, greatest: (1 << bits) - 1, is_signed: bits < 64, of: core::marker::PhantomData }
    }

    pub fn range(self, range: impl RangeBounds<i64>) -> Self {
        // No range of Rust leaves out its start.
        let least = if let Bound::Included(&least) = range.start_bound() { least.into() } else { self.least };
        let greatest = match range.end_bound() {
            Bound::Included(&greatest) => greatest.into(),
            Bound::Excluded(&above) => i128::from(above) - 1,
            Bound::Unbounded => self.greatest,
        };
        ValueParser { least, greatest, ..self }
    }

    /// Why a word is no such number, if it is none.
    fn fault(&self, word: &str) -> Option<String> {
        let number = if self.is_signed { i64::from_str(word).map(i128::from) } else { u64::from_str(word).map(i128::from) };
        match number {
            Ok(number) if (self.least..=self.greatest).contains(&number) => None,
            Ok(number) if self.greatest == u64::MAX.into() => Some(std::format!("{number} is not in {}..{}", self.least, self.greatest)),
            Ok(number) => Some(std::format!("{number} is not in {}..={}", self.least, self.greatest)),
            Err(fault) => Some(std::format!("{fault}")),
        }
    }
}

macro_rules! value_parser {
    ($of:ty) => {
        $crate::clap::ValueParser::unsigned(<$of>::BITS)
    };
}
pub(crate) use value_parser;

/// What an argument does each time that it is met.
#[derive(Clone, Copy, PartialEq, Eq)]
pub enum ArgAction {
    Set,
    SetTrue,
    Append,
    Help,
    Version,
}

/// An argument: an option, or the positional one, which has no long name.
#[derive(Clone)]
pub struct Arg<'a> {
    id: &'a str,
    help: &'a str,
    long: Option<&'a str>,
    value_name: &'a str,
    required: bool,
    action: ArgAction,
    default: Option<&'a str>,
    parser: Option<ValueParser<'a>>,
    requires: &'a [&'a str],
    conflicts: &'a [&'a str],
}

impl<'a> Arg<'a> {
    pub fn new(id: &'a str) -> Self {
        Arg {
            id,
            help: "",
            long: None,
            value_name: "",
            required: false,
            action: ArgAction::Set,
            default: None,
            parser: None,
            requires: &[],
            conflicts: &[],
        }
    }

    pub fn help(self, help: &'a str) -> Self {
        Arg { help, ..self }
    }

    pub fn long(self, long: &'a str) -> Self {
        Arg { long: Some(long), ..self }
    }

    pub fn value_name(self, value_name: &'a str) -> Self {
        Arg { value_name, ..self }
    }

    pub fn required(self, required: bool) -> Self {
        Arg { required, ..self }
    }

    pub fn action(self, action: ArgAction) -> Self {
        Arg { action, ..self }
    }

    pub fn default_value(self, word: &'a str) -> Self {
        Arg { default: Some(word), ..self }
    }

    pub fn value_parser(self, parser: ValueParser<'a>) -> Self {
        Arg { parser: Some(parser), ..self }
    }

    pub fn requires_all(self, requires: &'a [&'a str]) -> Result<Self, AllocError> {
        Ok(Arg { requires, ..self })
    }

    pub fn conflicts_with_all(self, conflicts: &'a [&'a str]) -> Result<Self, AllocError> {
        Ok(Arg { conflicts, ..self })
    }

    fn takes_value(&self) -> bool {
        matches!(self.action, ArgAction::Set | ArgAction::Append)
    }
}

/// The program or a subcommand.
pub struct Command<'a> {
    name: &'a str,
    about: &'a str,
    after_help: &'a str,
    version: Option<&'a str>,
    args: Vec<Arg<'a>>,
    subcommands: Vec<Command<'a>>,
    /// What its usage begins with.
    usage_name: String,
}

impl<'a> Command<'a> {
    pub fn new(name: &'a str) -> Self {
        let help = Arg::new("help").long("help").action(ArgAction::Help).help("Print help");
        Command {
            name,
            about: "",
            after_help: "",
            version: None,
            args: Vec::from([help]),
            subcommands: Vec::new(),
            usage_name: name.to_owned(),
        }
    }

    pub fn about(self, about: &'a str) -> Self {
        Command { about, ..self }
    }

    pub fn after_help(self, after_help: &'a str) -> Self {
        Command { after_help, ..self }
    }

    pub fn version(mut self, version: &'a str) -> Self {
        self.args.push(Arg::new("version").long("version").action(ArgAction::Version).help("Print version"));
        Command { version: Some(version), ..self }
    }

    /// The words begin after the program's name, always.
    pub fn no_binary_name(self, _: bool) -> Self {
        self
    }

    /// A command with subcommands wants one, always.
    pub fn subcommand_required(self, _: bool) -> Self {
        self
    }

    pub fn bin_name(self, _: &str) -> Result<Self, AllocError> {
        Ok(self)
    }

    /// Before `--help` and `--version`, which come last in the texts.
    pub fn arg(mut self, arg: Arg<'a>) -> Result<Self, AllocError> {
        let last = self.args.iter().position(|known| !known.takes_value() && known.action != ArgAction::SetTrue);
        self.args.insert(last.unwrap_or(self.args.len()), arg);
        Ok(self)
    }

    pub fn subcommand(mut self, mut command: Command<'a>) -> Result<Self, AllocError> {
        command.usage_name = std::format!("{} {}", self.name, command.name);
        self.subcommands.push(command);
        Ok(self)
    }

    pub fn error(&mut self, kind: ErrorKind, fault: &str) -> Result<Error, AllocError> {
        Ok(Error { kind, ..self.mistake(fault, Some(self.usage(&[], &[]))) })
    }

    /// Reads the words after the program's name.
    pub fn try_get_matches_from_mut<S: AsStr>(&mut self, words: &'a [S]) -> Result<ArgMatches<'a>, Error> {
        let words: Vec<&'a str> = words.iter().map(AsStr::as_str).collect();
        words::read(self, &words)
    }

    fn find(&self, id: &str) -> Option<&Arg<'a>> {
        self.args.iter().find(|arg| arg.id == id)
    }

    fn positional(&self) -> Option<&Arg<'a>> {
        self.args.iter().find(|arg| arg.long.is_none())
    }

    fn required_ids(&self) -> Vec<&'a str> {
        self.args.iter().filter(|arg| arg.required).map(|arg| arg.id).collect()
    }
}

/// An argument that was met, or has its default value, with the words of its values.
pub(crate) struct Met<'a> {
    id: &'a str,
    values: Vec<&'a str>,
    /// Whether it was among the words.
    is_used: bool,
}

/// What was read.
#[derive(Default)]
pub struct ArgMatches<'a> {
    met: Vec<Met<'a>>,
    subcommand: Option<(&'a str, Box<ArgMatches<'a>>)>,
}

impl<'a> ArgMatches<'a> {
    pub fn get_strs(&self, id: &str) -> Option<&[&'a str]> {
        self.met.iter().find(|met| met.id == id).map(|met| met.values.as_slice())
    }

    pub fn get_flag(&self, id: &str) -> bool {
        self.get_strs(id).is_some()
    }

    pub fn get_str(&self, id: &str) -> Option<&'a str> {
        self.get_strs(id)?.first().copied()
    }

    pub fn get_one<T: FromStr>(&self, id: &str) -> Option<T> {
        self.get_str(id)?.parse().ok()
    }

    pub fn get_many<T: FromStr>(&self, id: &str) -> Option<impl Iterator<Item = Result<T, T::Err>>> {
        Some(self.get_strs(id)?.iter().map(|word| word.parse()))
    }

    pub fn subcommand(&self) -> Option<(&'a str, &ArgMatches<'a>)> {
        self.subcommand.as_ref().map(|(name, matches)| (*name, &**matches))
    }
}
