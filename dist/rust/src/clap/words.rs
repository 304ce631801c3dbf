//! The walk over the words, and what is checked after it.
use super::{Arg, ArgAction, ArgMatches, Command, Error, Met};
use std::boxed::Box;
use std::format;
use std::string::String;
use std::vec::Vec;

/// Reads the words of a command, and of its subcommand.
pub(super) fn read<'a>(command: &Command<'a>, words: &[&'a str]) -> Result<ArgMatches<'a>, Error> {
    let mut walk = Walk { command, met: Vec::new(), pending: None };
    let subcommand = match walk.read_words(words)? {
        Some((inner, rest)) => Some((inner.name, Box::new(read(inner, rest)?))),
        None => None,
    };
    walk.resolve_pending()?;
    walk.add_defaults();
    walk.check(subcommand.is_some())?;
    Ok(ArgMatches { met: walk.met, subcommand })
}

/// An argument whose values are being read.
struct Pending<'c, 'a> {
    arg: &'c Arg<'a>,
    values: Vec<&'a str>,
}

struct Walk<'c, 'a> {
    command: &'c Command<'a>,
    met: Vec<Met<'a>>,
    pending: Option<Pending<'c, 'a>>,
}

impl<'c, 'a> Walk<'c, 'a> {
    /// Reads words up to a subcommand, if there is one, and answers it with the words after it.
    fn read_words<'w>(&mut self, words: &'w [&'a str]) -> Result<Option<(&'c Command<'a>, &'w [&'a str])>, Error> {
        let (mut wants_value, mut is_trailing, mut has_positional) = (false, false, false);
        for (at, word) in words.iter().copied().enumerate() {
            let rest = &words[at + 1..];
            if !is_trailing {
                if !wants_value {
                    if word == "help" && !self.command.subcommands.is_empty() {
                        return Err(help_of(self.command, rest));
                    }
                    if let Some(inner) = self.command.subcommands.iter().find(|inner| inner.name == word) {
                        return Ok(Some((inner, rest)));
                    }
                }
                if word == "--" {
                    is_trailing = true;
                    continue;
                }
                if let Some(long) = word.strip_prefix("--") {
                    wants_value = self.read_long(long, rest)?;
                    continue;
                }
                if let Some(letters) = word.strip_prefix('-').filter(|letters| !letters.is_empty()) {
                    self.read_short(letters)?;
                    wants_value = false;
                    continue;
                }
                if let (true, Some(pending)) = (wants_value, &mut self.pending) {
                    pending.values.push(word);
                    wants_value = false;
                    continue;
                }
            }
            match self.command.positional().filter(|_| !has_positional) {
                Some(arg) => {
                    self.resolve_pending()?;
                    self.pending = Some(Pending { arg, values: Vec::from([word]) });
                    (has_positional, wants_value) = (arg.action != ArgAction::Append, false);
                }
                None => {
                    let _ = self.resolve_pending();
                    return Err(self.command.no_such_word(word, is_trailing));
                }
            }
        }
        Ok(None)
    }

    /// Reads `--NAME` or `--NAME=VALUE`, and answers whether the next word is its value.
    fn read_long(&mut self, long: &'a str, rest: &[&str]) -> Result<bool, Error> {
        let (name, attached) = long.split_once('=').map_or((long, None), |(name, value)| (name, Some(value)));
        let Some(arg) = self.command.args.iter().find(|arg| arg.long == Some(name)) else {
            let _ = self.resolve_pending();
            return Err(self.no_such_option(name, rest));
        };
        if let (Some(value), false) = (attached, arg.takes_value()) {
            let required = self.command.required_ids();
            let mut used = self.used();
            used.retain(|id| !required.contains(id));
            used.push(arg.id);
            let _ = self.resolve_pending();
            let fault = format!("unexpected value '{value}' for '{arg}' found; no more were expected");
            return Err(self.command.mistake(&fault, Some(self.command.usage(&used, &required))));
        }
        self.resolve_pending()?;
        if attached.is_none() && arg.takes_value() {
            self.pending = Some(Pending { arg, values: Vec::new() });
            return Ok(true);
        }
        self.act(arg, attached.into_iter().collect())?;
        Ok(false)
    }

    /// Reads the letters of `-hV`.
    fn read_short(&mut self, letters: &str) -> Result<(), Error> {
        for letter in letters.chars() {
            let action = match letter {
                'h' => Some(ArgAction::Help),
                'V' => Some(ArgAction::Version),
                _ => None,
            };
            let Some(arg) = self.command.args.iter().find(|arg| Some(arg.action) == action) else {
                let _ = self.resolve_pending();
                return Err(self.command.no_such_letter(letter));
            };
            self.resolve_pending()?;
            self.act(arg, Vec::new())?;
        }
        Ok(())
    }

    /// Does what the argument is for whose values were being read.
    fn resolve_pending(&mut self) -> Result<(), Error> {
        match self.pending.take() {
            Some(pending) => self.act(pending.arg, pending.values),
            None => Ok(()),
        }
    }

    /// Does what an argument with these values is for.
    fn act(&mut self, arg: &'c Arg<'a>, values: Vec<&'a str>) -> Result<(), Error> {
        if arg.takes_value() && values.is_empty() {
            return Err(self.command.mistake(&format!("a value is required for '{arg}' but none was supplied"), None));
        }
        let earlier = self.met.iter().position(|met| met.id == arg.id);
        match arg.action {
            ArgAction::Help => return Err(self.command.help()),
            ArgAction::Version => return Err(self.command.version_text()),
            ArgAction::Append => {}
            ArgAction::Set | ArgAction::SetTrue => {
                if let Some(at) = earlier {
                    self.met.remove(at);
                    let fault = format!("the argument '{arg}' cannot be used multiple times");
                    return Err(self.command.mistake(&fault, Some(self.command.usage(&[], &[]))));
                }
            }
        }
        for value in &values {
            if let Some(fault) = arg.parser.as_ref().and_then(|parser| parser.fault(value)) {
                self.note_use(arg, Vec::new());
                return Err(self.command.mistake(&format!("invalid value '{value}' for '{arg}': {fault}"), None));
            }
        }
        self.note_use(arg, values);
        Ok(())
    }

    fn note_use(&mut self, arg: &Arg<'a>, values: Vec<&'a str>) {
        match self.met.iter_mut().find(|met| met.id == arg.id) {
            Some(met) => met.values.extend(values),
            None => self.met.push(Met { id: arg.id, values, is_used: true }),
        }
    }

    fn add_defaults(&mut self) {
        for arg in &self.command.args {
            let is_met = self.met.iter().any(|met| met.id == arg.id);
            if let (Some(word), false) = (arg.default, is_met) {
                self.met.push(Met { id: arg.id, values: Vec::from([word]), is_used: false });
            }
        }
    }

    /// What was among the words, in their order.
    fn used(&self) -> Vec<&'a str> {
        self.met.iter().filter(|met| met.is_used).map(|met| met.id).collect()
    }

    fn no_such_option(&mut self, name: &str, rest: &[&str]) -> Error {
        let similar = self.command.similar_option(name);
        if let Some(arg) = similar.and_then(|long| self.command.args.iter().find(|arg| arg.long == Some(long))) {
            self.note_use(arg, Vec::new());
        }
        let elsewhere = match similar {
            None => self.command.similar_option_of_subcommand(name, rest),
            Some(_) => None,
        };
        let usage = self.command.usage(&self.used(), &self.command.required_ids());
        self.command.no_such_option(name, similar, elsewhere, usage)
    }

    /// Whether what was used goes together, and nothing that is required is wanting.
    fn check(&self, has_subcommand: bool) -> Result<(), Error> {
        if !has_subcommand && !self.command.subcommands.is_empty() {
            return Err(self.command.no_subcommand());
        }
        let used = self.used();
        for id in &used {
            let against: Vec<_> = used.iter().copied().filter(|other| self.excludes(id, other)).collect();
            if !against.is_empty() {
                return Err(self.conflict(id, &used, &against));
            }
        }
        self.check_required(&used)
    }

    /// Whether one of two arguments says that they do not go together.
    fn excludes(&self, one: &str, other: &str) -> bool {
        let says = |id: &str, of: &str| self.command.find(id).is_some_and(|arg| arg.conflicts.contains(&of));
        one != other && (says(one, other) || says(other, one))
    }

    fn conflict(&self, id: &str, used: &[&'a str], against: &[&'a str]) -> Error {
        let kept: Vec<_> = used.iter().copied().filter(|one| !against.contains(one)).collect();
        let needs = kept.iter().filter_map(|one| self.command.find(one)).flat_map(|arg| arg.requires.iter().copied());
        let mut ids: Vec<_> = needs.filter(|need| !kept.contains(need) && !against.contains(need)).collect();
        ids.extend(&kept);
        let others: Vec<String> = against.iter().filter_map(|other| self.command.find(other)).map(|arg| format!("{arg}")).collect();
        let with = match others.as_slice() {
            [one] => format!(" '{one}'"),
            more => more.iter().fold(String::from(":"), |text, one| text + "\n  " + one),
        };
        let arg = self.command.find(id).map(|arg| format!("{arg}")).unwrap_or_default();
        let usage = self.command.usage(&ids, &self.command.required_ids());
        self.command.mistake(&format!("the argument '{arg}' cannot be used with{with}"), Some(usage))
    }

    fn check_required(&self, used: &[&'a str]) -> Result<(), Error> {
        let mut required = self.command.required_ids();
        for need in used.iter().filter_map(|id| self.command.find(id)).flat_map(|arg| arg.requires) {
            if !required.contains(need) {
                required.push(need);
            }
        }
        let is_excused = |id: &str| used.iter().any(|other| self.excludes(id, other));
        let missing: Vec<_> = required.iter().copied().filter(|id| !used.contains(id) && !is_excused(id)).collect();
        if missing.is_empty() {
            return Ok(());
        }
        let wanting: Vec<_> = required.iter().chain(&missing).copied().filter(|id| !used.contains(id)).collect();
        let names = self.command.in_order(&wanting).iter().fold(String::new(), |text, arg| text + "\n  " + &format!("{arg}"));
        let usage = self.command.usage(&[used, &missing].concat(), &required);
        Err(self.command.mistake(&format!("the following required arguments were not provided:{names}"), Some(usage)))
    }
}

/// The help of the subcommand that these words name, one within the other.
fn help_of(command: &Command<'_>, names: &[&str]) -> Error {
    let Some((name, rest)) = names.split_first() else {
        return command.help();
    };
    match command.subcommands.iter().find(|inner| inner.name == *name) {
        Some(inner) => help_of(inner, rest),
        None if *name == "help" && !command.subcommands.is_empty() => {
            rest.first().map_or_else(|| command.help_of_help(), |word| command.no_help_of(word))
        }
        None => command.mistake(&format!("unrecognized subcommand '{name}'"), Some(command.usage(&[], &[]))),
    }
}
