//! A reader of one page by hand, beside which bench/ratios.py times `cqlp check` and batches of events from C: `check FILE [events]`.
//!
//! It reads the file in pieces of 4,096 bytes and holds the bytes of the present scalar alone. It sees that each cell is within the page and has a
//! length and a content of its type, and prints how many cells, scalars, nulls and empty values there were, and a sum over the scalars. Nothing is
//! bounded or placed, and all refusals are the same. With `events` it also puts an event of 72 bytes, as include/cqlp.h has it, for each value into an
//! array of 256, and adds up the lengths of their contents where the array is full or the bytes move, as bindings/c/speed.c does. std alone:
//! `rustc --edition 2021 -O -C codegen-units=1 -o check check.rs`.
use std::fs::File;
use std::io::Read;

/// A type option; a set is read as a list.
enum Type {
    Scalar(u16),
    List(Box<Type>),
    Map(Box<Type>, Box<Type>),
    Tuple(Vec<Type>),
}

#[derive(Default)]
struct Count {
    cells: u64,
    scalars: u64,
    nulls: u64,
    empties: u64,
    sum: u64,
}

type Answer<T> = Result<T, &'static str>;

/// What C sees of a value.
#[repr(C)]
#[derive(Clone, Copy)]
struct Event {
    at: u64,
    content: *const u8,
    length: usize,
    number: i64,
    row: u32,
    column: u32,
    level: u32,
    extra: i32,
    bytes: [u8; 16],
    tag: u8,
    field: u8,
    kind: u8,
    opcode: u8,
    flags: u8,
    mark: u8,
    octets: u8,
}

const TAG_LEAF: u8 = 13;
const TAG_NULL: u8 = 14;
const TAG_EMPTY: u8 = 15;
const TAG_ENTER: u8 = 16;
const TAG_LEAVE: u8 = 17;

const BLANK: Event = Event {
    at: 0,
    content: std::ptr::null(),
    length: 0,
    number: 0,
    row: 0,
    column: 0,
    level: 0,
    extra: 0,
    bytes: [0; 16],
    tag: 0,
    field: 0,
    kind: 0,
    opcode: 0,
    flags: 0,
    mark: 0,
    octets: 0,
};

/// Where a value is in its page.
#[derive(Clone, Copy, Default)]
struct Place {
    row: u32,
    column: u32,
    level: u32,
}

/// The events of a batch, and what the batches before had.
struct Batch {
    events: [Event; 256],
    length: usize,
    put: u64,
    content: u64,
}

impl Batch {
    /// Begins an event at an offset, of a value in this place.
    #[inline(always)]
    fn put(&mut self, at: u64, place: Place, tag: u8, kind: u8) -> &mut Event {
        if self.length == self.events.len() {
            self.use_up();
        }
        let event = &mut self.events[self.length];
        self.length += 1;
        *event = Event { at, row: place.row, column: place.column, level: place.level, tag, kind, ..BLANK };
        event
    }

    #[inline(never)]
    fn use_up(&mut self) {
        for event in &self.events[..self.length] {
            self.content += event.length as u64;
        }
        self.put += self.length as u64;
        self.length = 0;
    }
}

/// Puts a scalar with this content, which is one of its type, into an event.
#[inline(always)]
fn put_scalar(event: &mut Event, id: u16, content: &[u8]) {
    match id {
        0x02 | 0x05 | 0x0B | 0x12 => event.number = i64::from_be_bytes(content.try_into().unwrap()),
        0x09 => event.number = i64::from(i32::from_be_bytes(content.try_into().unwrap())),
        0x11 => event.number = i64::from(u32::from_be_bytes(content.try_into().unwrap())),
        0x13 => event.number = i64::from(i16::from_be_bytes(content.try_into().unwrap())),
        0x14 => event.number = i64::from(content[0] as i8),
        0x04 => event.number = i64::from(content[0] != 0),
        0x07 | 0x08 | 0x0C | 0x0F | 0x10 => {
            event.bytes[..content.len()].copy_from_slice(content);
            event.octets = content.len() as u8;
        }
        _ => {
            let scale = if id == 0x06 { 4 } else { 0 };
            if scale == 4 {
                event.extra = i32::from_be_bytes(content[..4].try_into().unwrap());
            }
            event.content = content[scale..].as_ptr();
            event.length = content.len() - scale;
        }
    }
}

/// Of which kind a value of this type is for C.
fn kind_of(of: &Type) -> u8 {
    match of {
        Type::Scalar(id) => *id as u8,
        Type::List(_) => 0x20,
        Type::Map(..) => 0x21,
        Type::Tuple(_) => 0x31,
    }
}

/// A number that depends on a scalar's content, which is one of its type.
#[inline(always)]
fn scalar(id: u16, content: &[u8]) -> Answer<u64> {
    let has = |size: usize| if content.len() == size { Ok(()) } else { Err("size") };
    match id {
        0x02 | 0x05 | 0x07 | 0x0B => {
            has(8)?;
            Ok(u64::from_be_bytes(content.try_into().unwrap()))
        }
        0x12 => {
            has(8)?;
            let time = u64::from_be_bytes(content.try_into().unwrap());
            if time > 86_399_999_999_999 { Err("time") } else { Ok(time) }
        }
        0x08 | 0x09 | 0x11 => {
            has(4)?;
            Ok(u64::from(u32::from_be_bytes(content.try_into().unwrap())))
        }
        0x13 => {
            has(2)?;
            Ok(u64::from(u16::from_be_bytes(content.try_into().unwrap())))
        }
        0x04 | 0x14 => {
            has(1)?;
            Ok(u64::from(content[0]))
        }
        0x0C => {
            has(16)?;
            Ok(u64::from(content[0]))
        }
        0x0F => {
            has(16)?;
            if content[6] >> 4 == 1 { Ok(u64::from(content[0])) } else { Err("timeuuid") }
        }
        0x10 => match content.len() {
            4 | 16 => Ok(u64::from(content[0])),
            _ => Err("inet"),
        },
        0x06 => content.get(4).map(|byte| u64::from(*byte)).ok_or("decimal"),
        0x01 => if content.is_ascii() { Ok(content.len() as u64) } else { Err("ascii") },
        0x0D => match std::str::from_utf8(content) {
            Ok(text) => Ok(text.len() as u64),
            Err(_) => Err("utf8"),
        },
        _ => Ok(content.len() as u64),
    }
}

/// The bytes of the page's beginning that are left.
struct Head<'a> {
    left: &'a [u8],
}

impl<'a> Head<'a> {
    fn take(&mut self, count: usize) -> Answer<&'a [u8]> {
        if count > self.left.len() {
            return Err("overrun");
        }
        let (taken, left) = self.left.split_at(count);
        self.left = left;
        Ok(taken)
    }

    fn int(&mut self) -> Answer<i32> {
        Ok(i32::from_be_bytes(self.take(4)?.try_into().unwrap()))
    }

    fn short(&mut self) -> Answer<u16> {
        Ok(u16::from_be_bytes(self.take(2)?.try_into().unwrap()))
    }

    fn string(&mut self) -> Answer<()> {
        let count = usize::from(self.short()?);
        std::str::from_utf8(self.take(count)?).map(|_| ()).map_err(|_| "utf8")
    }

    fn option(&mut self, depth: u32) -> Answer<Type> {
        if depth > 64 {
            return Err("depth");
        }
        let inner = |head: &mut Self| head.option(depth + 1);
        Ok(match self.short()? {
            0x20 | 0x22 => Type::List(Box::new(inner(self)?)),
            0x21 => Type::Map(Box::new(inner(self)?), Box::new(inner(self)?)),
            0x31 => Type::Tuple((0..self.short()?).map(|_| inner(self)).collect::<Answer<_>>()?),
            id => Type::Scalar(id),
        })
    }

    /// The types of the columns, and how many rows there are.
    fn page(&mut self) -> Answer<(Vec<Type>, u32)> {
        let header = self.take(9)?;
        if header[0] != 0x84 || header[4] != 8 || self.int()? != 2 || self.int()? != 1 {
            return Err("no page with one table for all columns");
        }
        let count = self.int()?;
        self.string()?;
        self.string()?;
        let mut columns = Vec::new();
        for _ in 0..count {
            self.string()?;
            columns.push(self.option(1)?);
        }
        Ok((columns, u32::try_from(self.int()?).map_err(|_| "rows")?))
    }
}

/// What was read, and not yet used, of a file.
struct Pieces<const EVENTS: bool> {
    batch: Batch,
    offset: u64,
    file: File,
    bytes: Vec<u8>,
    start: usize,
    end: usize,
    piece: [u8; 4096],
}

impl<const EVENTS: bool> Pieces<EVENTS> {
    #[inline(always)]
    fn take(&mut self, count: usize) -> Answer<&[u8]> {
        if self.end - self.start < count {
            self.fill(count)?;
        }
        let start = self.start;
        self.start += count;
        Ok(&self.bytes[start..start + count])
    }

    #[cold]
    fn fill(&mut self, count: usize) -> Answer<()> {
        if EVENTS {
            self.batch.use_up();
            self.offset += self.start as u64;
        }
        self.bytes.copy_within(self.start..self.end, 0);
        self.end -= self.start;
        self.start = 0;
        while self.end < count {
            let got = self.file.read(&mut self.piece).map_err(|_| "read")?;
            if got == 0 {
                return Err("end");
            }
            if self.bytes.len() < self.end + got {
                self.bytes.resize((self.end + got).max(8192), 0);
            }
            self.bytes[self.end..self.end + got].copy_from_slice(&self.piece[..got]);
            self.end += got;
        }
        Ok(())
    }

    #[inline(always)]
    fn int(&mut self) -> Answer<i32> {
        Ok(i32::from_be_bytes(self.take(4)?.try_into().unwrap()))
    }

    /// The present offset.
    #[inline(always)]
    fn at(&self) -> u64 {
        self.offset + self.start as u64
    }

    /// Reads a value, of which no more than `left` bytes belong to what it is in.
    #[inline(always)]
    fn value(&mut self, of: &Type, left: &mut u64, count: &mut Count, place: Place) -> Answer<()> {
        if *left < 4 {
            return Err("overrun");
        }
        let at = self.at();
        *left -= 4;
        let size = self.int()?;
        if size < 0 {
            count.nulls += 1;
            if EVENTS {
                self.batch.put(at, place, TAG_NULL, 0);
            }
            return Ok(());
        }
        if size == 0 {
            count.empties += 1;
            if EVENTS {
                self.batch.put(at, place, TAG_EMPTY, 0);
            }
            return Ok(());
        }
        if size as u64 > *left {
            return Err("overrun");
        }
        *left -= size as u64;
        match of {
            Type::Scalar(id) => {
                count.scalars += 1;
                self.take(size as usize)?;
                let content = &self.bytes[self.start - size as usize..self.start];
                count.sum = count.sum.wrapping_add(scalar(*id, content)?);
                if EVENTS {
                    put_scalar(self.batch.put(at, place, TAG_LEAF, *id as u8), *id, content);
                }
                Ok(())
            }
            _ => self.items(of, size as u64, count, place, at),
        }
    }

    /// Reads the items of a value of this many bytes.
    fn items(&mut self, of: &Type, mut left: u64, count: &mut Count, place: Place, at: u64) -> Answer<()> {
        let inner = Place { level: place.level + 1, ..place };
        let number;
        match of {
            Type::List(_) | Type::Map(..) => {
                if left < 4 {
                    return Err("overrun");
                }
                left -= 4;
                let items = self.int()?;
                if items < 0 {
                    return Err("count");
                }
                number = i64::from(items);
                if EVENTS {
                    self.batch.put(at, place, TAG_ENTER, kind_of(of)).number = number;
                }
                for _ in 0..items {
                    match of {
                        Type::List(item) => self.value(item, &mut left, count, inner)?,
                        Type::Map(key, value) => {
                            self.value(key, &mut left, count, inner)?;
                            self.value(value, &mut left, count, inner)?;
                        }
                        _ => unreachable!(),
                    }
                }
            }
            Type::Tuple(fields) => {
                number = fields.len() as i64;
                if EVENTS {
                    self.batch.put(at, place, TAG_ENTER, kind_of(of)).number = number;
                }
                for field in fields {
                    if left == 0 {
                        break;
                    }
                    self.value(field, &mut left, count, inner)?;
                }
            }
            Type::Scalar(_) => unreachable!(),
        }
        if EVENTS {
            let inside = Place { level: place.level, ..Place::default() };
            let at = self.at();
            self.batch.put(at, inside, TAG_LEAVE, 0).number = number;
        }
        if left == 0 { Ok(()) } else { Err("extra bytes") }
    }
}

/// Reads the page in a file, whose metadata has at most 64 KB.
fn read<const EVENTS: bool>(path: &str) -> Answer<Count> {
    let mut file = File::open(path).map_err(|_| "open")?;
    let total = file.metadata().map_err(|_| "size")?.len();
    let mut bytes = vec![0; 65_536];
    let mut end = 0;
    loop {
        match file.read(&mut bytes[end..]).map_err(|_| "read")? {
            0 => break,
            got => end += got,
        }
    }
    let mut head = Head { left: &bytes[..end] };
    let (columns, rows) = head.page()?;
    let start = end - head.left.len();
    let batch = Batch { events: [BLANK; 256], length: 0, put: 0, content: 0 };
    let mut pieces = Pieces::<EVENTS> { batch, offset: 0, file, bytes, start, end, piece: [0; 4096] };
    let mut left = total - start as u64;
    let mut count = Count::default();
    for row in 0..rows {
        for (at, column) in columns.iter().enumerate() {
            count.cells += 1;
            let place = Place { row, column: at as u32, level: 0 };
            pieces.value(column, &mut left, &mut count, place)?;
        }
    }
    if EVENTS {
        pieces.batch.use_up();
        println!("{} events, {} bytes of contents", pieces.batch.put, pieces.batch.content);
    }
    if left == 0 { Ok(count) } else { Err("bytes after the page") }
}

fn main() -> Result<(), String> {
    let path = std::env::args().nth(1).ok_or("the page is wanted")?;
    let Count { cells, scalars, nulls, empties, sum } = match std::env::args().nth(2) {
        Some(_) => read::<true>(&path)?,
        None => read::<false>(&path)?,
    };
    println!("{cells} cells, {scalars} scalars, {nulls} nulls, {empties} empty, which add up to {sum}");
    Ok(())
}
