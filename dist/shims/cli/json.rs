//! What the command has of `json`: the value of RFC 8259 that a slice is. Its texts are parts of the slice, or of a `Scratch` where they have escapes.
use crate::kit_std::vec::KitVec;

const SPACE: [char; 4] = [' ', '\t', '\n', '\r'];

/// The room for texts with escapes, which grows to the longest slice.
pub struct Scratch(Vec<u8>);

impl Scratch {
    pub fn new() -> Self {
        Scratch(Vec::new())
    }
}

pub enum Error {
    Invalid,
    OutOfMemory,
}

/// A number is its text, and an object has its members in order.
pub enum Value<'a> {
    Null,
    Bool(bool),
    Number(&'a str),
    String(&'a str),
    Array(Vec<Value<'a>>),
    Object(Vec<(&'a str, Value<'a>)>),
}

impl<'a> Value<'a> {
    /// The one value that the bytes are, with at most 128 arrays and objects in each other.
    pub fn from_slice(bytes: &'a [u8], scratch: &'a mut Scratch) -> Result<Self, Error> {
        let rest = std::str::from_utf8(bytes).map_err(|_| Error::Invalid)?;
        scratch.0.kit_resize(scratch.0.len().max(bytes.len()), 0).map_err(|_| Error::OutOfMemory)?;
        let mut reader = Reader { rest, room: &mut scratch.0 };
        let value = reader.value(128)?;
        if reader.rest.trim_start_matches(SPACE).is_empty() { Ok(value) } else { Err(Error::Invalid) }
    }
}

impl<'a> Value<'a> {
    /// A number with no sign, point or exponent, if it fits.
    pub fn as_u64(&self) -> Option<u64> {
        if let Value::Number(text) = self { text.parse().ok() } else { None }
    }

    pub fn as_str(&self) -> Option<&'a str> {
        if let Value::String(text) = self { Some(text) } else { None }
    }

    pub fn at(&self, index: usize) -> Option<&Value<'a>> {
        if let Value::Array(items) = self { items.get(index) } else { None }
    }

    /// The last member of that name.
    pub fn get(&self, name: &str) -> Option<&Value<'a>> {
        let Value::Object(members) = self else { return None };
        members.iter().rev().find(|member| member.0 == name).map(|member| &member.1)
    }
}

struct Reader<'a> {
    rest: &'a str,
    room: &'a mut [u8],
}

impl<'a> Reader<'a> {
    /// Passes over white space, and a mark behind it if that comes.
    fn take(&mut self, mark: char) -> Option<()> {
        let rest = self.rest.trim_start_matches(SPACE);
        self.rest = rest.strip_prefix(mark).unwrap_or(rest);
        (self.rest.len() < rest.len()).then_some(())
    }

    fn value(&mut self, depth: usize) -> Result<Value<'a>, Error> {
        match depth.checked_sub(1) {
            _ if self.take('"').is_some() => self.string().map(Value::String),
            Some(depth) if self.take('[').is_some() => self.list(']', |reader| reader.value(depth)).map(Value::Array),
            Some(depth) if self.take('{').is_some() => {
                self.list('}', |reader| Ok((reader.name()?, reader.value(depth)?))).map(Value::Object)
            }
            _ => self.word(),
        }
    }

    fn list<T>(&mut self, end: char, item: impl Fn(&mut Self) -> Result<T, Error>) -> Result<Vec<T>, Error> {
        let mut items = Vec::new();
        while self.take(end).is_none() {
            if !items.is_empty() {
                self.take(',').ok_or(Error::Invalid)?;
            }
            items.kit_push(item(self)?).map_err(|_| Error::OutOfMemory)?;
        }
        Ok(items)
    }

    fn name(&mut self) -> Result<&'a str, Error> {
        self.take('"').ok_or(Error::Invalid)?;
        let name = self.string()?;
        self.take(':').map(|()| name).ok_or(Error::Invalid)
    }

    fn word(&mut self) -> Result<Value<'a>, Error> {
        let end = self.rest.find(|c| SPACE.contains(&c) || ",:[]{}".contains(c)).unwrap_or(self.rest.len());
        let (word, rest) = self.rest.split_at(end);
        self.rest = rest;
        match word {
            "null" => Ok(Value::Null),
            "true" | "false" => Ok(Value::Bool(word == "true")),
            _ if is_number(word) => Ok(Value::Number(word)),
            _ => Err(Error::Invalid),
        }
    }

    /// What follows a quote, up to the next one.
    fn string(&mut self) -> Result<&'a str, Error> {
        let mut made = 0;
        loop {
            let end = self.rest.find(|c| c < ' ' || c == '"' || c == '\\').ok_or(Error::Invalid)?;
            let (part, rest) = self.rest.split_at(end);
            self.rest = &rest[1..];
            if made == 0 && rest.starts_with('"') {
                return Ok(part);
            }
            self.room[made..made + end].copy_from_slice(part.as_bytes());
            made += end;
            if rest.starts_with('"') {
                let (text, room) = core::mem::take(&mut self.room).split_at_mut(made);
                self.room = room;
                return std::str::from_utf8(text).map_err(|_| Error::Invalid);
            }
            let c = if rest.starts_with('\\') { self.escape() } else { None };
            made += c.ok_or(Error::Invalid)?.encode_utf8(&mut self.room[made..]).len();
        }
    }

    /// What follows a backslash.
    fn escape(&mut self) -> Option<char> {
        let mut rest = self.rest.chars();
        let mark = rest.next()?;
        self.rest = rest.as_str();
        match mark {
            '"' | '\\' | '/' => Some(mark),
            'a'..='t' => "b\x08f\x0cn\nr\rt\t".split_once(mark)?.1.chars().next(),
            'u' => {
                let units = [unit_of(self.rest)?, self.rest[4..].strip_prefix("\\u").and_then(unit_of).unwrap_or(0)];
                let c = char::decode_utf16(units).next()?.ok()?;
                self.rest = &self.rest[if c > '\u{ffff}' { 10 } else { 4 }..];
                Some(c)
            }
            _ => None,
        }
    }
}

/// Four hexadecimal digits.
fn unit_of(text: &str) -> Option<u16> {
    let digits = text.get(..4).filter(|digits| digits.bytes().all(|digit| digit.is_ascii_hexdigit()))?;
    u16::from_str_radix(digits, 16).ok()
}

fn is_number(word: &str) -> bool {
    let are_digits = |text: &str| !text.is_empty() && text.bytes().all(|digit| digit.is_ascii_digit());
    let (front, power) = word.split_once(['e', 'E']).unwrap_or((word, "0"));
    let (whole, part) = front.split_once('.').unwrap_or((front, "0"));
    let whole = whole.strip_prefix('-').unwrap_or(whole);
    let power = power.strip_prefix(['+', '-']).unwrap_or(power);
    are_digits(whole) && are_digits(part) && are_digits(power) && (whole == "0" || !whole.starts_with('0'))
}
