// Builds the pages of pages.py as values in memory and writes them into a Vec that was reserved: by hand. The words are a page, its
// rows, how many times, and `checked` where each value is measured first, and seen to be of its column's type, so that nothing is written
// of a page that is not whole; without it lengths are put in once they are known, and types are trusted.

enum Atom {
    Int(i32),
    Bigint(i64),
    Varchar(String),
    Boolean(bool),
    Blob(Vec<u8>),
}

enum Value {
    Leaf(Atom),
    List(Vec<Value>),
    Map(Vec<(Value, Value)>),
}

enum Type {
    Plain(u16),
    List(Box<Type>),
    Map(Box<Type>, Box<Type>),
}

struct Page {
    keyspace: String,
    table: String,
    columns: Vec<(String, Type)>,
    rows: u32,
    cells: Vec<Value>,
}

fn put_text(out: &mut Vec<u8>, text: &str) {
    out.extend_from_slice(&(text.len() as u16).to_be_bytes());
    out.extend_from_slice(text.as_bytes());
}

fn put_int(out: &mut Vec<u8>, number: i32) {
    out.extend_from_slice(&number.to_be_bytes());
}

fn put_type(out: &mut Vec<u8>, of: &Type) {
    match of {
        Type::Plain(id) => out.extend_from_slice(&id.to_be_bytes()),
        Type::List(inner) => {
            out.extend_from_slice(&0x20u16.to_be_bytes());
            put_type(out, inner);
        }
        Type::Map(key, value) => {
            out.extend_from_slice(&0x21u16.to_be_bytes());
            put_type(out, key);
            put_type(out, value);
        }
    }
}

fn put_content(out: &mut Vec<u8>, content: &[u8]) {
    put_int(out, content.len() as i32);
    out.extend_from_slice(content);
}

fn put_atom(out: &mut Vec<u8>, atom: &Atom) {
    match atom {
        Atom::Int(number) => put_content(out, &number.to_be_bytes()),
        Atom::Bigint(number) => put_content(out, &number.to_be_bytes()),
        Atom::Varchar(text) => put_content(out, text.as_bytes()),
        Atom::Boolean(truth) => put_content(out, &[u8::from(*truth)]),
        Atom::Blob(bytes) => put_content(out, bytes),
    }
}

/// Writes a value after its length, which is put in once it is known.
fn put_value(out: &mut Vec<u8>, value: &Value) {
    if let Value::Leaf(atom) = value {
        return put_atom(out, atom);
    }
    let start = out.len();
    put_int(out, 0);
    match value {
        Value::Leaf(_) => {}
        Value::List(items) => {
            put_int(out, items.len() as i32);
            items.iter().for_each(|item| put_value(out, item));
        }
        Value::Map(pairs) => {
            put_int(out, pairs.len() as i32);
            for (key, value) in pairs {
                put_value(out, key);
                put_value(out, value);
            }
        }
    }
    let length = (out.len() - start - 4) as i32;
    out[start..start + 4].copy_from_slice(&length.to_be_bytes());
}

/// How many bytes a value has with its length, if it is of this type.
fn measure(value: &Value, of: &Type) -> Option<usize> {
    match (value, of) {
        (Value::Leaf(atom), Type::Plain(id)) => match (atom, id) {
            (Atom::Int(_), 0x9) => Some(8),
            (Atom::Bigint(_), 0x2) => Some(12),
            (Atom::Varchar(text), 0xD) if !text.is_empty() => Some(4 + text.len()),
            (Atom::Boolean(_), 0x4) => Some(5),
            (Atom::Blob(bytes), 0x3) if !bytes.is_empty() => Some(4 + bytes.len()),
            _ => None,
        },
        (Value::List(items), Type::List(inner)) => items.iter().try_fold(8, |sum, item| Some(sum + measure(item, inner)?)),
        (Value::Map(pairs), Type::Map(key, inner)) => pairs
            .iter()
            .try_fold(8, |sum, (k, v)| Some(sum + measure(k, key)? + measure(v, inner)?)),
        _ => None,
    }
}

/// Whether each cell is of its column's type, and all have no more bytes than a frame.
fn fits(page: &Page) -> bool {
    let mut columns = page.columns.iter().cycle();
    let size = page.cells.iter().try_fold(0, |sum: usize, value| {
        let (_, of) = columns.next()?;
        Some(sum + measure(value, of)?)
    });
    size.is_some_and(|size| size <= 0x1000_0000)
}

fn encode(page: &Page, out: &mut Vec<u8>) {
    out.extend_from_slice(&[0x84, 0, 0, 0, 0x08, 0, 0, 0, 0]);
    put_int(out, 2);
    put_int(out, 1);
    put_int(out, page.columns.len() as i32);
    put_text(out, &page.keyspace);
    put_text(out, &page.table);
    for (name, of) in &page.columns {
        put_text(out, name);
        put_type(out, of);
    }
    put_int(out, page.rows as i32);
    page.cells.iter().for_each(|value| put_value(out, value));
    let length = (out.len() - 9) as i32;
    out[5..9].copy_from_slice(&length.to_be_bytes());
}

fn letters(number: u32) -> Value {
    Value::Leaf(Atom::Varchar(format!("{number:016}")))
}

fn int(number: u32) -> Value {
    Value::Leaf(Atom::Int(number as i32))
}

fn types(name: &str) -> Vec<Type> {
    let plain = |id| Box::new(Type::Plain(id));
    match name {
        "rows" => [0x9, 0x2, 0xD, 0x4].map(Type::Plain).into_iter().collect(),
        "collections" => vec![Type::List(plain(0x9)), Type::Map(plain(0xD), plain(0x9))],
        "columns" => (0..200).map(|_| Type::Plain(0x9)).collect(),
        "blobs" => vec![Type::Plain(0x3)],
        _ => panic!("no such page"),
    }
}

fn push_row(name: &str, row: u32, cells: &mut Vec<Value>) {
    match name {
        "rows" => {
            cells.push(int(row));
            cells.push(Value::Leaf(Atom::Bigint(i64::from(row) * 1_000_003)));
            cells.push(letters(row));
            cells.push(Value::Leaf(Atom::Boolean(row % 2 == 1)));
        }
        "collections" => {
            cells.push(Value::List((0..8).map(|k| int(row + k)).collect()));
            cells.push(Value::Map((0..3).map(|k| (letters(row + k), int(k))).collect()));
        }
        "columns" => cells.extend((0..200).map(|k| int(row + k))),
        _ => cells.push(Value::Leaf(Atom::Blob((0..1 << 20).map(|k: u32| k as u8).collect()))),
    }
}

fn main() {
    let line = std::io::read_to_string(std::io::stdin()).unwrap();
    let line = line.trim();
    let words: Vec<&str> = line.split_whitespace().collect();
    let rows: u32 = words[1].parse().unwrap();
    let times: u32 = words[2].parse().unwrap();
    let columns: Vec<_> = types(words[0]).into_iter().enumerate().map(|(i, of)| (format!("column{i}"), of)).collect();
    let mut cells = Vec::with_capacity(rows as usize * columns.len());
    (0..rows).for_each(|row| push_row(words[0], row, &mut cells));
    let page = Page { keyspace: "shop".into(), table: "orders".into(), columns, rows, cells };
    let mut out = Vec::new();
    let checked = words.len() > 3;
    for _ in 0..times {
        out.clear();
        assert!(!checked || fits(&page));
        encode(&page, &mut out);
    }
    let sum = out.iter().fold(0u64, |sum, byte| sum.wrapping_add(u64::from(*byte)));
    println!("{line}: {} bytes, which add up to {sum}", out.len());
}
