// Writes the text of a stream of one page, as `cqlp show` and `cqlp rows` do: by hand. The words are show or rows, and the page's
// file. It reads pieces of 4,096 bytes, holds no more than one value, checks lengths, texts and counts, and knows the kinds of value
// that pages.py writes.
use std::fs::File;
use std::io::{self, Read, Write};

const PIECE: usize = 4096;
const ROOM: usize = 65_536;

enum Type {
    Plain(u16),
    List(Box<Type>),
    Map(Box<Type>, Box<Type>),
}

/// The bytes of a file, piece by piece.
struct Input {
    file: File,
    bytes: Vec<u8>,
    from: usize,
    at: u64,
}

impl Input {
    /// The next bytes, this many.
    #[inline(always)]
    fn take(&mut self, count: usize) -> &[u8] {
        if self.bytes.len() - self.from < count {
            self.fill(count);
        }
        let from = self.from;
        self.from += count;
        self.at += count as u64;
        &self.bytes[from..from + count]
    }

    #[cold]
    fn fill(&mut self, count: usize) {
        self.bytes.drain(..self.from);
        self.from = 0;
        let mut piece = [0; PIECE];
        while self.bytes.len() < count {
            let got = self.file.read(&mut piece).unwrap();
            assert!(got > 0, "cut");
            self.bytes.extend_from_slice(&piece[..got]);
        }
    }

    #[inline(always)]
    fn short(&mut self) -> u16 {
        u16::from_be_bytes(self.take(2).try_into().unwrap())
    }

    #[inline(always)]
    fn int(&mut self) -> i32 {
        i32::from_be_bytes(self.take(4).try_into().unwrap())
    }
}

/// Text on its way to standard output.
struct Output {
    text: Vec<u8>,
    out: io::Stdout,
}

impl Output {
    #[inline(always)]
    fn put(&mut self, bytes: &[u8]) {
        self.text.extend_from_slice(bytes);
    }

    /// Passes the text on once there is enough of it, between two lines or values.
    #[inline(always)]
    fn ease(&mut self) {
        if self.text.len() >= ROOM {
            self.flush();
        }
    }

    #[cold]
    fn flush(&mut self) {
        self.out.lock().write_all(&self.text).unwrap();
        self.text.clear();
    }

    #[inline(always)]
    fn number(&mut self, number: u64) {
        let mut digits = [0u8; 20];
        let mut at = 20;
        let mut left = number;
        loop {
            at -= 1;
            digits[at] = b'0' + (left % 10) as u8;
            left /= 10;
            if left == 0 {
                break;
            }
        }
        self.put(&digits[at..]);
    }

    #[inline(always)]
    fn signed(&mut self, number: i64) {
        if number < 0 {
            self.put(b"-");
        }
        self.number(number.unsigned_abs());
    }

    fn digits(&mut self, count: u32, number: u64) {
        for place in (0..count).rev() {
            self.put(&[b'0' + (number / 10u64.pow(place) % 10) as u8]);
        }
    }

    fn hex(&mut self, bytes: &[u8]) {
        const DIGITS: &[u8; 16] = b"0123456789abcdef";
        self.text.reserve(2 * bytes.len());
        for byte in bytes {
            self.put(&[DIGITS[(byte >> 4) as usize], DIGITS[(byte & 15) as usize]]);
        }
    }

    fn quoted(&mut self, text: &[u8]) {
        self.put(b"\"");
        let mut rest = text;
        while let Some(plain) = rest.iter().position(|&b| b < 32 || b == b'"' || b == b'\\' || b == 127) {
            self.put(&rest[..plain]);
            match rest[plain] {
                b'"' => self.put(b"\\\""),
                b'\\' => self.put(b"\\\\"),
                byte => {
                    self.put(b"\\x");
                    self.hex(&[byte]);
                }
            }
            rest = &rest[plain + 1..];
        }
        self.put(rest);
        self.put(b"\"");
    }

    fn uuid(&mut self, bytes: &[u8]) {
        for (i, part) in [&bytes[..4], &bytes[4..6], &bytes[6..8], &bytes[8..10], &bytes[10..]].iter().enumerate() {
            if i > 0 {
                self.put(b"-");
            }
            self.hex(part);
        }
    }

    fn varint(&mut self, bytes: &[u8]) {
        if bytes.len() > 16 {
            self.put(b"0x");
            return self.hex(bytes);
        }
        let first = if bytes[0] >= 128 { -1 } else { 0 };
        let number = bytes.iter().fold(first, |n: i128, &b| n << 8 | b as i128);
        match i64::try_from(number) {
            Ok(number) => self.signed(number),
            Err(_) => write!(self.text, "{number}").unwrap(),
        }
    }

    fn address(&mut self, bytes: &[u8]) {
        for (i, part) in bytes.chunks(if bytes.len() == 4 { 1 } else { 2 }).enumerate() {
            match part {
                [byte] => {
                    if i > 0 {
                        self.put(b".");
                    }
                    self.number(*byte as u64);
                }
                _ => {
                    if i > 0 {
                        self.put(b":");
                    }
                    self.hex(part);
                }
            }
        }
    }

    fn date(&mut self, number: u32) {
        let day = number as i64 - (1 << 31);
        if !(-719_528..2_932_897).contains(&day) {
            self.put(b"day ");
            return self.signed(day);
        }
        let (year, month, day) = civil(day);
        self.digits(4, year);
        self.put(b"-");
        self.digits(2, month);
        self.put(b"-");
        self.digits(2, day);
    }

    fn time(&mut self, nanoseconds: u64) {
        assert!(nanoseconds < 86_400_000_000_000, "time");
        self.digits(2, nanoseconds / 3_600_000_000_000);
        self.put(b":");
        self.digits(2, nanoseconds / 60_000_000_000 % 60);
        self.put(b":");
        self.digits(2, nanoseconds / 1_000_000_000 % 60);
        self.put(b".");
        self.digits(9, nanoseconds % 1_000_000_000);
    }

    /// The text of a value of a plain type.
    #[inline(always)]
    fn scalar(&mut self, id: u16, bytes: &[u8]) {
        match id {
            0x09 => self.signed(i32::from_be_bytes(bytes.try_into().unwrap()) as i64),
            0x02 | 0x05 | 0x0B => self.signed(i64::from_be_bytes(bytes.try_into().unwrap())),
            0x01 => {
                assert!(bytes.is_ascii());
                self.quoted(bytes)
            }
            0x0D => self.quoted(std::str::from_utf8(bytes).unwrap().as_bytes()),
            0x04 => self.put(if bytes.len() == 1 && bytes[0] != 0 { b"true" } else { b"false" }),
            0x13 => self.signed(i16::from_be_bytes(bytes.try_into().unwrap()) as i64),
            0x14 => self.signed(i8::from_be_bytes(bytes.try_into().unwrap()) as i64),
            0x0C | 0x0F => {
                assert!(bytes.len() == 16);
                self.uuid(bytes)
            }
            0x0E => self.varint(bytes),
            0x06 => {
                self.varint(&bytes[4..]);
                self.put(b"e");
                self.signed(-(i32::from_be_bytes(bytes[..4].try_into().unwrap()) as i64));
            }
            0x10 => self.address(bytes),
            0x11 => self.date(u32::from_be_bytes(bytes.try_into().unwrap())),
            0x12 => self.time(u64::from_be_bytes(bytes.try_into().unwrap())),
            _ => {
                self.put(b"0x");
                self.hex(bytes)
            }
        }
    }
}

/// Year, month and day of a day from 1970.
fn civil(day: i64) -> (u64, u64, u64) {
    let z = day + 719_468 + 146_097 * 5;
    let era = z / 146_097;
    let of_era = z % 146_097;
    let year_of_era = (of_era - of_era / 1460 + of_era / 36_524 - of_era / 146_096) / 365;
    let of_year = of_era - (365 * year_of_era + year_of_era / 4 - year_of_era / 100);
    let shifted = (5 * of_year + 2) / 153;
    let month = if shifted < 10 { shifted + 3 } else { shifted - 9 };
    let year = year_of_era + era * 400 - 2000 + i64::from(month <= 2);
    (year as u64, month as u64, (of_year - (153 * shifted + 2) / 5 + 1) as u64)
}

fn name(id: u16) -> &'static str {
    match id {
        0x01 => "ascii",
        0x02 => "bigint",
        0x03 => "blob",
        0x04 => "boolean",
        0x05 => "counter",
        0x06 => "decimal",
        0x07 => "double",
        0x08 => "float",
        0x09 => "int",
        0x0B => "timestamp",
        0x0C => "uuid",
        0x0D => "varchar",
        0x0E => "varint",
        0x0F => "timeuuid",
        0x10 => "inet",
        0x11 => "date",
        0x12 => "time",
        0x13 => "smallint",
        0x14 => "tinyint",
        _ => panic!("type"),
    }
}

/// A page on its way from bytes to text; `SHOW` where each event is a line, else the page's rows are text.
struct Page<const SHOW: bool> {
    input: Input,
    output: Output,
}

impl<const SHOW: bool> Page<SHOW> {
    /// The line of a field, before its value.
    fn field(&mut self, name: &str) {
        if SHOW {
            self.output.number(self.input.at);
            self.output.put(name.as_bytes());
        }
    }

    fn int(&mut self, name: &str) -> u32 {
        self.field(name);
        let number = self.input.int();
        if SHOW {
            self.output.signed(number as i64);
            self.output.put(b"\n");
        }
        number as u32
    }

    fn text(&mut self, name: &str, is_column: bool) {
        self.field(name);
        let len = self.input.short() as usize;
        let text = std::str::from_utf8(self.input.take(len)).unwrap();
        if SHOW || is_column {
            if !SHOW {
                self.output.put(b"column ");
            }
            self.output.quoted(text.as_bytes());
            self.output.put(b"\n");
        }
    }

    fn node(&mut self) -> Type {
        self.field(" TypeNode ");
        let id = self.input.short();
        let kind = match id {
            0x20 => "list",
            0x21 => "map",
            _ => name(id),
        };
        if SHOW {
            self.output.put(kind.as_bytes());
            self.output.put(b"\n");
        }
        match id {
            0x20 => Type::List(Box::new(self.node())),
            0x21 => Type::Map(Box::new(self.node()), Box::new(self.node())),
            _ => Type::Plain(id),
        }
    }

    #[inline(always)]
    fn place(&mut self, at: u64, name: &[u8], row: u32, column: u32, level: u32) {
        self.output.number(at);
        self.output.put(name);
        self.output.number(row as u64);
        self.output.put(b" ");
        self.output.number(column as u64);
        self.output.put(b" ");
        self.output.number(level as u64);
    }

    /// A value, of which at most `room` bytes may be taken. Answers how many were.
    #[inline(always)]
    fn value(&mut self, of: &Type, row: u32, column: u32, level: u32, room: u64) -> u64 {
        self.output.ease();
        let at = self.input.at;
        let len = self.input.int();
        if len <= 0 {
            let (show, rows): (&[u8], &[u8]) = if len < 0 { (b" Null ", b"null") } else { (b" Empty ", b"empty") };
            if SHOW {
                self.place(at, show, row, column, level);
                self.output.put(b"\n");
            } else {
                self.output.put(rows);
            }
            return 4;
        }
        assert!(4 + len as u64 <= room, "room");
        match of {
            Type::Plain(id) => {
                if SHOW {
                    self.place(at, b" Leaf ", row, column, level);
                    self.output.put(b" ");
                }
                self.output.scalar(*id, self.input.take(len as usize));
                if SHOW {
                    self.output.put(b"\n");
                }
            }
            _ => self.items(of, at, row, column, level, len as u64),
        }
        4 + len as u64
    }

    fn items(&mut self, of: &Type, at: u64, row: u32, column: u32, level: u32, len: u64) {
        let count = self.input.int() as u32;
        let mut left = len - 4;
        let (name, open, close): (&[u8], &[u8], &[u8]) = match of {
            Type::List(_) => (b" list ", b"[", b"]"),
            _ => (b" map ", b"{", b"}"),
        };
        if SHOW {
            self.place(at, b" Enter ", row, column, level);
            self.output.put(name);
            self.output.number(count as u64);
            self.output.put(b"\n");
        } else {
            self.output.put(open);
        }
        for i in 0..count {
            if !SHOW && i > 0 {
                self.output.put(b", ");
            }
            match of {
                Type::List(item) => left -= self.value(item, row, column, level + 1, left),
                Type::Map(key, value) => {
                    left -= self.value(key, row, column, level + 1, left);
                    if !SHOW {
                        self.output.put(b": ");
                    }
                    left -= self.value(value, row, column, level + 1, left);
                }
                Type::Plain(_) => unreachable!(),
            }
        }
        assert!(left == 0, "left");
        if SHOW {
            self.output.number(self.input.at);
            self.output.put(b" Leave ");
            self.output.number(level as u64);
            self.output.put(b" ");
            self.output.number(count as u64);
            self.output.put(b"\n");
        } else {
            self.output.put(close);
        }
    }

    fn run(mut self) {
        let head: [u8; 9] = self.input.take(9).try_into().unwrap();
        assert!(head[..2] == [0x84, 0] && head[4] == 8, "no plain result");
        let stream = i16::from_be_bytes([head[2], head[3]]);
        let length = u32::from_be_bytes(head[5..].try_into().unwrap());
        if SHOW {
            writeln!(self.output.text, "0 Frame response 00 {stream} RESULT {length}").unwrap();
        }
        assert!(self.int(" Int ResultKind ") == 2, "no rows");
        assert!(self.int(" Int MetaFlags ") == 1, "flags");
        let columns = self.int(" Count Columns ");
        self.text(" Text Keyspace ", false);
        self.text(" Text Table ", false);
        let mut types = Vec::new();
        for _ in 0..columns {
            self.text(" Text ColumnName ", true);
            types.push(self.node());
        }
        let rows = self.int(" Count Rows ");
        if !SHOW {
            writeln!(self.output.text, "page {columns} columns {rows} rows").unwrap();
        }
        let end = 9 + length as u64;
        for row in 0..rows {
            for (column, of) in types.iter().enumerate() {
                if !SHOW && column > 0 {
                    self.output.put(b" | ");
                }
                self.value(of, row, column as u32, 0, end - self.input.at);
            }
            if !SHOW {
                self.output.put(b"\n");
            }
        }
        assert!(self.input.at == end, "extra");
        if SHOW {
            writeln!(self.output.text, "{end} End 0").unwrap();
        }
        self.output.flush();
    }
}

fn main() {
    let words: Vec<String> = std::env::args().collect();
    let input = Input { file: File::open(&words[2]).unwrap(), bytes: Vec::new(), from: 0, at: 0 };
    let output = Output { text: Vec::with_capacity(2 * ROOM), out: io::stdout() };
    match words[1].as_str() {
        "show" => Page::<true> { input, output }.run(),
        _ => Page::<false> { input, output }.run(),
    }
}
