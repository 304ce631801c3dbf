//! A reader by hand of each page, as a driver would write it that has the page whole: it checks bounds, lengths and UTF-8, and knows the types.

use std::collections::BTreeMap;

type Read<T> = Result<T, &'static str>;

/// The next bytes.
fn take<'a>(rest: &mut &'a [u8], count: usize) -> Read<&'a [u8]> {
    let (bytes, later) = rest.split_at_checked(count).ok_or("cut")?;
    *rest = later;
    Ok(bytes)
}

fn int(rest: &mut &[u8]) -> Read<i32> {
    Ok(i32::from_be_bytes(take(rest, 4)?.try_into().map_err(|_| "size")?))
}

fn short(rest: &mut &[u8]) -> Read<u16> {
    Ok(u16::from_be_bytes(take(rest, 2)?.try_into().map_err(|_| "size")?))
}

fn text<'a>(rest: &mut &'a [u8]) -> Read<&'a str> {
    let count = short(rest)?;
    str::from_utf8(take(rest, count.into())?).map_err(|_| "UTF-8")
}

/// The content of the next cell or item, which is not null.
fn content<'a>(rest: &mut &'a [u8]) -> Read<&'a [u8]> {
    let count = usize::try_from(int(rest)?).map_err(|_| "null")?;
    take(rest, count)
}

fn int_content(rest: &mut &[u8]) -> Read<i32> {
    Ok(i32::from_be_bytes(content(rest)?.try_into().map_err(|_| "size")?))
}

fn text_content<'a>(rest: &mut &'a [u8]) -> Read<&'a str> {
    str::from_utf8(content(rest)?).map_err(|_| "UTF-8")
}

/// Reads all that is before the rows, whose columns are to have these type options, and answers how many rows there are.
fn head(rest: &mut &[u8], wanted: &[u16]) -> Read<u32> {
    take(rest, 9)?;
    if (int(rest)?, int(rest)?) != (2, 1) {
        return Err("no page with its columns");
    }
    let columns = int(rest)?;
    text(rest)?;
    text(rest)?;
    let mut options = wanted;
    for _ in 0..columns {
        text(rest)?;
        loop {
            let (option, later) = options.split_first().ok_or("more columns")?;
            if short(rest)? != *option {
                return Err("another type");
            }
            options = later;
            // A list has one type after it, and a map two.
            match option {
                0x20 => continue,
                0x21 => {
                    let (pair, later) = options.split_at_checked(2).ok_or("more columns")?;
                    if [short(rest)?, short(rest)?] != *pair {
                        return Err("another type");
                    }
                    options = later;
                    break;
                }
                _ => break,
            }
        }
    }
    if options.is_empty() { Ok(int(rest)?.cast_unsigned()) } else { Err("fewer columns") }
}

/// A row of the page `rows`.
pub struct Row<'a> {
    pub id: i32,
    pub total: i64,
    pub name: &'a str,
    pub paid: bool,
}

/// Hands each row of the page `rows` to a closure.
pub fn rows<'a>(mut page: &'a [u8], mut hand: impl FnMut(Row<'a>)) -> Read<()> {
    let rest = &mut page;
    for _ in 0..head(rest, &[9, 2, 13, 4])? {
        let (id, total) = (int_content(rest)?, i64::from_be_bytes(content(rest)?.try_into().map_err(|_| "size")?));
        let name = text_content(rest)?;
        let &[paid] = content(rest)? else { return Err("size") };
        hand(Row { id, total, name, paid: paid != 0 });
    }
    Ok(())
}

/// Each row of the page `collections`, by its items: a list and a map.
pub fn collections<'a>(mut page: &'a [u8], mut hand: impl FnMut(&'a [u8], &'a [u8])) -> Read<()> {
    let rest = &mut page;
    for _ in 0..head(rest, &[0x20, 9, 0x21, 13, 9])? {
        hand(content(rest)?, content(rest)?);
    }
    Ok(())
}

/// The ints of a list.
pub fn list(mut cell: &[u8], mut hand: impl FnMut(i32)) -> Read<()> {
    for _ in 0..int(&mut cell)? {
        hand(int_content(&mut cell)?);
    }
    if cell.is_empty() { Ok(()) } else { Err("more bytes") }
}

/// The pairs of a map.
pub fn map<'a>(mut cell: &'a [u8], mut hand: impl FnMut(&'a str, i32)) -> Read<()> {
    for _ in 0..int(&mut cell)? {
        hand(text_content(&mut cell)?, int_content(&mut cell)?);
    }
    if cell.is_empty() { Ok(()) } else { Err("more bytes") }
}

/// A row of the page `collections`.
pub fn owned(cells: (&[u8], &[u8])) -> Read<(Vec<i32>, BTreeMap<String, i32>)> {
    let (mut items, mut pairs) = (Vec::new(), BTreeMap::new());
    list(cells.0, |item| items.push(item))?;
    map(cells.1, |key, value| _ = pairs.insert(key.to_string(), value))?;
    Ok((items, pairs))
}

/// Each row of the page `columns`.
pub fn columns(mut page: &[u8], mut hand: impl FnMut(&[i32; 200])) -> Read<()> {
    let rest = &mut page;
    let mut row = [0; 200];
    for _ in 0..head(rest, &[9; 200])? {
        for cell in &mut row {
            *cell = int_content(rest)?;
        }
        hand(&row);
    }
    Ok(())
}
