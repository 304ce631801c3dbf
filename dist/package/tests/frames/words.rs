//! The words of a line.

/// The words that are left of a line. A word that does not say what was asked for ends the test.
pub struct Words<'a> {
    rest: &'a str,
}

/// A type whose values words spell out.
pub trait FromWords {
    fn from_words(words: &mut Words<'_>) -> Self;
}

/// What all words of a line spell out.
pub fn all_of<T>(line: &str, read: impl FnOnce(&mut Words<'_>) -> T) -> T {
    let mut words = Words { rest: line };
    let all = read(&mut words);
    assert_eq!(words.rest, "", "these words are left of {line}");
    all
}

impl<'a> Words<'a> {
    /// Ends the test.
    pub fn bad(&self, word: &str) -> ! {
        panic!("{word} stands before {}", self.rest)
    }

    /// Takes the next word.
    pub fn word(&mut self) -> &'a str {
        let (word, rest) = split(self.rest);
        self.rest = rest;
        word
    }

    /// Takes the next word if it is this one.
    pub fn accept(&mut self, wanted: &str) -> bool {
        let (word, rest) = split(self.rest);
        if word == wanted {
            self.rest = rest;
        }
        word == wanted
    }

    /// Reads what the next words spell out.
    pub fn read<T: FromWords>(&mut self) -> T {
        T::from_words(self)
    }

    /// The same, or None for the word `-`.
    pub fn option<T: FromWords>(&mut self) -> Option<T> {
        (!self.accept("-")).then(|| self.read())
    }

    /// A list, or None for the word `-`.
    pub fn list_option<T: FromWords>(&mut self) -> Option<Vec<T>> {
        (!self.accept("-")).then(|| self.list())
    }

    /// A list: how many items it has, and the items; `30*2` has two items that come thirty times.
    pub fn list<T: FromWords>(&mut self) -> Vec<T> {
        let word = self.word();
        let (times, count) = word.split_once('*').unwrap_or(("1", word));
        let (times, count): (u32, u32) = (times.parse().unwrap(), count.parse().unwrap());
        let (start, mut items) = (self.rest, std::vec::Vec::new());
        for _ in 0..times {
            self.rest = start;
            items.extend((0..count).map(|_| self.read::<T>()));
        }
        items
    }

    /// Bytes in hexadecimal digits, this many.
    pub fn array<const N: usize>(&mut self) -> [u8; N] {
        self.bytes().try_into().unwrap()
    }

    /// A byte in hexadecimal digits.
    pub fn byte(&mut self) -> u8 {
        u8::from_be_bytes(self.array())
    }

    /// Bytes in hexadecimal digits, or `""` for none.
    pub fn bytes(&mut self) -> Vec<u8> {
        bytes_of(self.word())
    }

    /// A word, or `""` for the text without letters, or `30*ab` for thirty times `ab`.
    pub fn text(&mut self) -> String {
        let word = self.word();
        let (times, once) = word.split_once('*').unwrap_or(("1", if word == "\"\"" { "" } else { word }));
        once.repeat(times.parse().unwrap())
    }
}

/// The words before the first space and after it.
fn split(words: &str) -> (&str, &str) {
    words.split_once(' ').unwrap_or((words, ""))
}

/// The bytes that hexadecimal digits spell, or none of `""`.
pub fn bytes_of(word: &str) -> std::vec::Vec<u8> {
    let digits = if word == "\"\"" { "" } else { word };
    digits.as_bytes().chunks(2).map(|pair| u8::from_str_radix(std::str::from_utf8(pair).unwrap(), 16).unwrap()).collect()
}

macro_rules! numbers {
    ($($number:ty)*) => {$(
        /// Decimal digits.
        impl FromWords for $number {
            fn from_words(words: &mut Words<'_>) -> $number {
                words.word().parse().unwrap()
            }
        }
    )*};
}

numbers!(i16 i32 i64 u16 u32 usize);

impl FromWords for String {
    fn from_words(words: &mut Words<'_>) -> String {
        words.text()
    }
}

impl FromWords for Option<String> {
    fn from_words(words: &mut Words<'_>) -> Option<String> {
        words.option()
    }
}

impl FromWords for Vec<String> {
    fn from_words(words: &mut Words<'_>) -> Vec<String> {
        words.list()
    }
}

impl FromWords for Vec<u8> {
    fn from_words(words: &mut Words<'_>) -> Vec<u8> {
        words.bytes()
    }
}

/// Bytes, or None for the word `null`.
impl FromWords for Option<Vec<u8>> {
    fn from_words(words: &mut Words<'_>) -> Option<Vec<u8>> {
        (!words.accept("null")).then(|| words.bytes())
    }
}

impl FromWords for [u8; 16] {
    fn from_words(words: &mut Words<'_>) -> [u8; 16] {
        words.array()
    }
}

impl<A: FromWords, B: FromWords> FromWords for (A, B) {
    fn from_words(words: &mut Words<'_>) -> (A, B) {
        (words.read(), words.read())
    }
}
