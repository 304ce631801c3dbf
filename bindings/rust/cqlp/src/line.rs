//! Events as the lines of `cqlp show`, and scalars as their texts.

use crate::event::{Bound, Event, Frame, Place, Scalar, What};
use crate::names::Field;
use std::fmt::{self, Display, Formatter, Write};
use std::net::IpAddr;

/// The line that `cqlp show` writes of it, without the byte at its end.
impl Display for Event<'_> {
    fn fmt(&self, f: &mut Formatter<'_>) -> fmt::Result {
        write!(f, "{} ", self.at)?;
        match &self.what {
            What::Frame(frame) => frame.fmt(f),
            What::Byte(field, number) => named(f, "Byte", field, number),
            What::Short(field, number) => named(f, "Short", field, number),
            What::Int(field, number) => named(f, "Int", field, number),
            What::Long(field, number) => named(f, "Long", field, number),
            What::Count(field, number) => named(f, "Count", field, number),
            What::Uuid(field, uuid) => named(f, "Uuid", field, Hyphened(uuid)),
            What::Text(field, text) => named(f, "Text", field, Quoted(text)),
            What::Bytes(field, None) => named(f, "Bytes", field, "null"),
            What::Bytes(field, Some(bytes)) => named(f, "Bytes", field, Hex(bytes)),
            What::Bound(field, bound) => named(f, "Bound", field, bound),
            What::Inet(field, address, port) => write!(f, "Inet {field} {} {port}", Address(*address)),
            What::TypeNode(kind) => write!(f, "TypeNode {kind}"),
            What::Leaf(place, scalar) => write!(f, "Leaf {place} {scalar}"),
            What::Null(place) => write!(f, "Null {place}"),
            What::Empty(place) => write!(f, "Empty {place}"),
            What::Enter { place, kind, items } => write!(f, "Enter {place} {kind} {items}"),
            What::Leave { level, items } => write!(f, "Leave {level} {items}"),
            What::Part {
                place,
                offset,
                bytes,
                last,
            } => {
                let more = if *last { "last" } else { "more" };
                write!(f, "Part {place} {offset} {more} {}", Hex(bytes))
            }
            What::End(extra) => write!(f, "End {extra}"),
            What::Other(tag) => tag.fmt(f),
        }
    }
}

fn named(f: &mut Formatter<'_>, event: &str, field: &Field, value: impl Display) -> fmt::Result {
    write!(f, "{event} {field} {value}")
}

impl Display for Frame {
    fn fmt(&self, f: &mut Formatter<'_>) -> fmt::Result {
        let direction = if self.response { "response" } else { "request" };
        let Frame {
            flags,
            stream,
            opcode,
            length,
            ..
        } = self;
        write!(f, "Frame {direction} {flags:02x} {stream} {opcode} {length}")
    }
}

impl Display for Place {
    fn fmt(&self, f: &mut Formatter<'_>) -> fmt::Result {
        write!(f, "{} {} {}", self.row, self.column, self.level)
    }
}

impl Display for Bound<'_> {
    fn fmt(&self, f: &mut Formatter<'_>) -> fmt::Result {
        match self {
            Bound::Null => f.write_str("null"),
            Bound::Unset => f.write_str("unset"),
            Bound::Bytes(bytes) => Hex(bytes).fmt(f),
        }
    }
}

/// The text of a cell, as `cqlp rows` writes it.
impl Display for Scalar<'_> {
    fn fmt(&self, f: &mut Formatter<'_>) -> fmt::Result {
        match *self {
            Scalar::Bigint(number) | Scalar::Counter(number) | Scalar::Timestamp(number) => number.fmt(f),
            Scalar::Int(number) => number.fmt(f),
            Scalar::Smallint(number) => number.fmt(f),
            Scalar::Tinyint(number) => number.fmt(f),
            Scalar::Boolean(value) => value.fmt(f),
            Scalar::Ascii(text) | Scalar::Varchar(text) => Quoted(text).fmt(f),
            Scalar::Custom(bytes) | Scalar::Blob(bytes) | Scalar::Raw(bytes) | Scalar::Other(_, bytes) => {
                Hex(bytes).fmt(f)
            }
            Scalar::Float(number) => Hex(&number.to_be_bytes()).fmt(f),
            Scalar::Double(number) => Hex(&number.to_be_bytes()).fmt(f),
            Scalar::Uuid(uuid) | Scalar::Timeuuid(uuid) => Hyphened(&uuid).fmt(f),
            Scalar::Inet(address) => Address(address).fmt(f),
            Scalar::Varint(content) => Varint(content).fmt(f),
            Scalar::Decimal { scale, unscaled } => write!(f, "{}e{}", Varint(unscaled), -i64::from(scale)),
            Scalar::Time(number) => time(f, number),
            Scalar::Date(number) => date(f, i64::from(number) - (1 << 31)),
        }
    }
}

/// `0x` and two digits for each byte.
struct Hex<'a>(&'a [u8]);

impl Display for Hex<'_> {
    fn fmt(&self, f: &mut Formatter<'_>) -> fmt::Result {
        f.write_str("0x")?;
        self.0.iter().try_for_each(|byte| write!(f, "{byte:02x}"))
    }
}

/// A text between quotation marks, with what would not print escaped.
struct Quoted<'a>(&'a str);

impl Display for Quoted<'_> {
    fn fmt(&self, f: &mut Formatter<'_>) -> fmt::Result {
        f.write_char('"')?;
        for letter in self.0.chars() {
            match letter {
                '"' | '\\' => write!(f, "\\{letter}")?,
                '\0'..='\x1F' | '\x7F' => write!(f, "\\x{:02x}", u32::from(letter))?,
                _ => f.write_char(letter)?,
            }
        }
        f.write_char('"')
    }
}

/// A uuid.
struct Hyphened<'a>(&'a [u8; 16]);

impl Display for Hyphened<'_> {
    fn fmt(&self, f: &mut Formatter<'_>) -> fmt::Result {
        for (at, byte) in self.0.iter().enumerate() {
            let hyphen = if matches!(at, 4 | 6 | 8 | 10) { "-" } else { "" };
            write!(f, "{hyphen}{byte:02x}")?;
        }
        Ok(())
    }
}

/// An address, never shortened.
struct Address(IpAddr);

impl Display for Address {
    fn fmt(&self, f: &mut Formatter<'_>) -> fmt::Result {
        let IpAddr::V6(address) = self.0 else {
            return self.0.fmt(f);
        };
        for (at, group) in address.segments().into_iter().enumerate() {
            let colon = if at > 0 { ":" } else { "" };
            write!(f, "{colon}{group:04x}")?;
        }
        Ok(())
    }
}

/// A number in two's complement: in decimal where it has at most 16 bytes.
struct Varint<'a>(&'a [u8]);

impl Display for Varint<'_> {
    fn fmt(&self, f: &mut Formatter<'_>) -> fmt::Result {
        let Some(first) = self.0.first().filter(|_| self.0.len() <= 16) else {
            return Hex(self.0).fmt(f);
        };
        let sign = if *first < 0x80 { 0 } else { -1 };
        let number = self
            .0
            .iter()
            .fold(sign, |number: i128, byte| number << 8 | i128::from(*byte));
        number.fmt(f)
    }
}

fn time(f: &mut Formatter<'_>, number: i64) -> fmt::Result {
    let (seconds, nanoseconds) = (number / 1_000_000_000, number % 1_000_000_000);
    let (hours, minutes) = (seconds / 3600, seconds / 60 % 60);
    write!(f, "{hours:02}:{minutes:02}:{:02}.{nanoseconds:09}", seconds % 60)
}

/// A day, counted from 1970: its date in the years 0000 to 9999.
fn date(f: &mut Formatter<'_>, days: i64) -> fmt::Result {
    if !(-719_528..=2_932_896).contains(&days) {
        return write!(f, "day {days}");
    }
    // days from the first of March of the year 0, or of the 400 years before it; a year of these ends in February
    let days = days + 719_468 + 146_097;
    let (cycle, day) = (days / 146_097, days % 146_097);
    let year = (day - day / 1460 + day / 36_524 - day / 146_096) / 365;
    let day = day - (365 * year + year / 4 - year / 100);
    let month = (5 * day + 2) / 153;
    let day = day - (153 * month + 2) / 5 + 1;
    let (month, next) = if month < 10 { (month + 3, 0) } else { (month - 9, 1) };
    write!(f, "{:04}-{month:02}-{day:02}", cycle * 400 - 400 + year + next)
}
