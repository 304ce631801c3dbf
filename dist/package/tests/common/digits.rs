//! Bytes in hexadecimal digits.
#![forbid(unsafe_code)]

/// The bytes that hexadecimal digits spell, with spaces between some; `20x0009` is twenty times 0009.
pub fn bytes_of(words: &str) -> Vec<u8> {
    words.split_whitespace().flat_map(repeated).collect()
}

fn repeated(word: &str) -> Vec<u8> {
    let (times, digits) = word.split_once('x').unwrap_or(("1", word));
    let once = digits.as_bytes().chunks(2).map(|pair| u8::from_str_radix(std::str::from_utf8(pair).unwrap(), 16).unwrap());
    once.collect::<Vec<_>>().repeat(times.parse().unwrap())
}
