//! The texts: usage, help, and what is said of mistakes.
use super::{Arg, Command, Error, ErrorKind};
use std::fmt;
use std::format;
use std::string::{String, ToString};
use std::vec::Vec;

impl fmt::Display for Arg<'_> {
    fn fmt(&self, f: &mut fmt::Formatter<'_>) -> fmt::Result {
        match self.long {
            None if self.action == super::ArgAction::Append => write!(f, "<{}>...", self.value_name),
            None => write!(f, "<{}>", self.value_name),
            Some(long) if self.takes_value() => write!(f, "--{long} <{}>", self.value_name),
            Some(long) => write!(f, "--{long}"),
        }
    }
}

const HELP_ABOUT: &str = "Print this message or the help of the given subcommand(s)";

impl<'a> Command<'a> {
    /// The usage with these arguments and what is required, or, where there are none, with all.
    pub(super) fn usage(&self, used: &[&'a str], required: &[&'a str]) -> String {
        let mut text = format!("Usage: {}", self.usage_name);
        let required = if required.is_empty() { self.required_ids() } else { required.to_vec() };
        let is_option = |arg: &&Arg<'_>| arg.long.is_some() && (arg.takes_value() || arg.action == super::ArgAction::SetTrue);
        if used.is_empty() && self.args.iter().filter(is_option).any(|arg| !arg.required) {
            text += " [OPTIONS]";
        }
        let mut wanted = Vec::new();
        for id in &required {
            wanted.extend(self.find(id).into_iter().flat_map(|arg| arg.requires.iter().copied()));
            wanted.push(*id);
        }
        wanted.extend(used);
        for arg in self.in_order(&wanted) {
            text += &format!(" {arg}");
        }
        if !self.subcommands.is_empty() {
            text += " <COMMAND>";
        }
        text
    }

    /// The arguments with these names, each once, the positional one last.
    pub(super) fn in_order(&self, ids: &[&str]) -> Vec<&Arg<'a>> {
        let mut args: Vec<&Arg<'a>> = Vec::new();
        for arg in ids.iter().filter_map(|id| self.find(id)) {
            if !args.iter().any(|known| known.id == arg.id) {
                args.push(arg);
            }
        }
        args.sort_by_key(|arg| arg.long.is_none());
        args
    }

    pub(super) fn mistake(&self, fault: &str, usage: Option<String>) -> Error {
        let usage = usage.map_or(String::new(), |usage| format!("\n\n{usage}"));
        Error { kind: ErrorKind::ValueValidation, text: format!("error: {fault}{usage}\n\nFor more information, try '--help'.\n") }
    }

    /// A word that no argument takes.
    pub(super) fn no_such_word(&self, word: &str, is_trailing: bool) -> Error {
        let usage = Some(self.usage(&[], &[]));
        let is_subcommand = word == "help" || self.subcommands.iter().any(|inner| inner.name == word);
        if self.subcommands.is_empty() {
            return self.mistake(&format!("unexpected argument '{word}' found"), usage);
        }
        if is_trailing && is_subcommand {
            let tip = format!("tip: subcommand '{word}' exists; to use it, remove the '--' before it");
            return self.mistake(&format!("unexpected argument '{word}' found\n\n  {tip}"), usage);
        }
        let similar = similar(word, self.subcommands.iter().map(|inner| inner.name).chain(["help"]));
        let names = similar.iter().map(|name| format!("'{name}'")).collect::<Vec<_>>().join(", ");
        let tip = match similar.len() {
            0 => String::new(),
            1 => format!("\n\n  tip: a similar subcommand exists: {names}"),
            _ => format!("\n\n  tip: some similar subcommands exist: {names}"),
        };
        self.mistake(&format!("unrecognized subcommand '{word}'{tip}"), usage)
    }

    pub(super) fn no_such_letter(&self, letter: char) -> Error {
        let tip = self.tip_of_value(&format!("-{letter}"));
        self.mistake(&format!("unexpected argument '-{letter}' found{tip}"), Some(self.usage(&[], &[])))
    }

    /// `similar` is an option of the command, and `elsewhere` a subcommand and an option of that.
    pub(super) fn no_such_option(&self, name: &str, similar: Option<&str>, elsewhere: Option<(&str, &str)>, usage: String) -> Error {
        let tip = match (similar, elsewhere) {
            (Some(long), _) => format!("\n\n  tip: a similar argument exists: '--{long}'"),
            (None, Some((subcommand, long))) => format!("\n\n  tip: '{subcommand} --{long}' exists"),
            (None, None) => self.tip_of_value(&format!("--{name}")),
        };
        self.mistake(&format!("unexpected argument '--{name}' found{tip}"), Some(usage))
    }

    fn tip_of_value(&self, word: &str) -> String {
        match self.positional() {
            Some(_) => format!("\n\n  tip: to pass '{word}' as a value, use '-- {word}'"),
            None => String::new(),
        }
    }

    pub(super) fn no_subcommand(&self) -> Error {
        let names = self.subcommands.iter().map(|inner| inner.name).chain(["help"]).collect::<Vec<_>>().join(", ");
        let fault = format!("'{}' requires a subcommand but one was not provided\n  [subcommands: {names}]", self.name);
        self.mistake(&fault, Some(self.usage(&[], &[])))
    }

    pub(super) fn similar_option(&self, name: &str) -> Option<&'a str> {
        similar(name, self.args.iter().filter_map(|arg| arg.long)).pop()
    }

    /// A subcommand that is among these words and has an option that is like this one.
    pub(super) fn similar_option_of_subcommand(&self, name: &str, words: &[&str]) -> Option<(&'a str, &'a str)> {
        let place = |inner: &Command<'a>| words.iter().position(|word| *word == inner.name);
        let found = self.subcommands.iter().filter_map(|inner| Some((place(inner)?, inner.name, inner.similar_option(name)?)));
        found.min_by_key(|(place, ..)| *place).map(|(_, subcommand, long)| (subcommand, long))
    }

    pub(super) fn version_text(&self) -> Error {
        let text = format!("{} {}\n", self.name, self.version.unwrap_or_default());
        Error { kind: ErrorKind::DisplayVersion, text }
    }

    pub(super) fn help(&self) -> Error {
        let mut text = format!("{}\n\n{}", self.about, self.usage(&[], &[]));
        let commands = self.subcommands.iter().map(|inner| (inner.name.to_string(), inner.about.to_string()));
        let commands: Vec<_> = match self.subcommands.is_empty() {
            true => Vec::new(),
            false => commands.chain([("help".to_string(), HELP_ABOUT.to_string())]).collect(),
        };
        push_table(&mut text, "Commands", &commands);
        let rows = |is_option: bool| {
            let args = self.args.iter().filter(move |arg| arg.long.is_some() == is_option);
            args.map(|arg| (shown_in_help(arg), arg.help.to_string() + &default_in_help(arg))).collect::<Vec<_>>()
        };
        push_table(&mut text, "Arguments", &rows(false));
        push_table(&mut text, "Options", &rows(true));
        if !self.after_help.is_empty() {
            text += &format!("\n\n{}", self.after_help);
        }
        Error { kind: ErrorKind::DisplayHelp, text: text.trim_end().to_string() + "\n" }
    }

    /// What `help help` says.
    pub(super) fn help_of_help(&self) -> Error {
        let table = "Arguments:\n  [COMMAND]...  Print help for the subcommand(s)";
        let text = format!("{HELP_ABOUT}\n\nUsage: {} help [COMMAND]...\n\n{table}\n", self.name);
        Error { kind: ErrorKind::DisplayHelp, text }
    }

    /// What `help help WORD` says.
    pub(super) fn no_help_of(&self, word: &str) -> Error {
        let text = format!("error: unrecognized subcommand '{word}'\n\nUsage: {} help [COMMAND]...\n", self.name);
        Error { kind: ErrorKind::ValueValidation, text }
    }
}

fn shown_in_help(arg: &Arg<'_>) -> String {
    match (arg.long, arg.action) {
        (_, super::ArgAction::Help) => "-h, --help".to_string(),
        (_, super::ArgAction::Version) => "-V, --version".to_string(),
        (Some(_), _) => format!("    {arg}"),
        (None, _) => format!("{arg}"),
    }
}

fn default_in_help(arg: &Arg<'_>) -> String {
    arg.default.map_or(String::new(), |word| format!(" [default: {word}]"))
}

fn push_table(text: &mut String, heading: &str, rows: &[(String, String)]) {
    let Some(width) = rows.iter().map(|(name, _)| name.len()).max() else {
        return;
    };
    *text += &format!("\n\n{heading}:");
    for (name, help) in rows {
        *text += &format!("\n  {name:width$}  {help}");
    }
}

/// The names that are like a word, the most similar one last.
fn similar<'n>(word: &str, names: impl Iterator<Item = &'n str>) -> Vec<&'n str> {
    let mut found: Vec<(f64, &str)> = Vec::new();
    for name in names {
        let likeness = crate::strsim::jaro(word, name).unwrap_or(0.0);
        if likeness > 0.7 {
            let at = found.iter().filter(|(other, _)| *other <= likeness).count();
            found.insert(at, (likeness, name));
        }
    }
    found.into_iter().map(|(_, name)| name).collect()
}
