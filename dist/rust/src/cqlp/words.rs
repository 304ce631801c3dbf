// Written by dist/erase from crates/cqlp/src/words.rt.
//! Words that need not be text.

use crate::kit_host::prelude::{KitString, KitText, KitVec, String, Vec, format};
use crate::cqlp_options::CommandLine;
use crate::libc::STDIN_FILENO;
use crate::kit_std::alloc::{AllocError};
use crate::kit_host::env::{Env, FillError};

/// A word after the program's name.
pub struct Argument {
    /// The word, where each byte that is no text is written as its two hexadecimal digits.
    pub(crate) text: String,
    /// Its own bytes, where they are no text.
    pub(crate) raw: Option<Vec<u8>>,
}

impl Argument {
    fn new(bytes: Vec<u8>) -> Result<Argument, AllocError> {
        match String::from_utf8(bytes) {
            Ok(text) => Ok(Argument { text, raw: None }),
            Err(error) => {
                let raw = error.into_bytes();
                let text = escaped(&raw)?;
                let raw = Some(raw);
                Ok(Argument { text, raw })
            }
        }
    }
}

/// All words after the program's name.
pub fn read_words<R: Env>(rt: &R) -> Result<Vec<Argument>, AllocError> {
    let mut words = Vec::new();
    for place in 1..usize::MAX {
        let Some(bytes) = read_word(rt, place)? else {
            break;
        };
        words.kit_push(Argument::new(bytes)?)?;
    }
    Ok(words)
}

/// The bytes of the word at a place, if there is one. A buffer that is too short is doubled.
fn read_word<R: Env>(rt: &R, place: usize) -> Result<Option<Vec<u8>>, AllocError> {
    let mut bytes = Vec::new();
    let mut room = 256usize;
    for _ in 0..usize::BITS {
        bytes.kit_resize(room, 0)?;
        match rt.arg(place, bytes.as_mut_slice()) {
            Ok(len) => {
                bytes.truncate(len);
                return Ok(Some(bytes));
            }
            Err(FillError::NotPresent) => return Ok(None),
            Err(FillError::TooLong) => room = room.saturating_mul(2),
        }
    }
    Err(AllocError)
}

fn escaped(bytes: &[u8]) -> Result<String, AllocError> {
    let mut text = String::new();
    for chunk in bytes.utf8_chunks() {
        text.kit_push_str(chunk.valid())?;
        for byte in chunk.invalid() {
            write!(text, "\\x{byte:02x}")?;
        }
    }
    Ok(text)
}

/// The texts of the words.
pub fn texts(words: &[Argument]) -> Result<Vec<&str>, AllocError> {
    let mut texts = Vec::new();
    for word in words {
        texts.kit_push(word.text.as_str())?;
    }
    Ok(texts)
}

/// Why the command line's words were not read.
#[derive(Clone, Copy)]
pub enum NotRead {
    NoMemory,
    /// The word at this place names a file that cannot be opened.
    CannotOpen(usize),
}

impl From<AllocError> for NotRead {
    fn from(_error: AllocError) -> NotRead {
        NotRead::NoMemory
    }
}

/// Opens the files whose names are no text, and has their words name them by one: a file that is alone, opened in the place of standard input,
/// by `-`, and each of several by its descriptor.
pub fn redirect(words: &mut [Argument]) -> Result<(), NotRead> {
    if words.iter().all(|word| word.raw.is_none()) {
        return Ok(());
    }
    let files = raw_files(words)?;
    for place in &files.places {
        let Some(word) = words.get_mut(*place) else {
            continue;
        };
        let name = match &word.raw {
            Some(raw) if files.are_several => descriptor_name(raw)?,
            Some(raw) => input_name(raw)?,
            None => continue,
        };
        word.text = name.ok_or(NotRead::CannotOpen(*place))?;
    }
    Ok(())
}

/// Files whose names are no text.
struct RawFiles {
    /// The places of the words that name them.
    places: Vec<usize>,
    /// Whether the command line names more than one file.
    are_several: bool,
}

fn raw_files(words: &[Argument]) -> Result<RawFiles, AllocError> {
    let mut places = Vec::new();
    let texts = texts(words)?;
    let Ok(line) = CommandLine::parse(texts.as_slice()) else {
        return Ok(RawFiles {
            places,
            are_several: false,
        });
    };
    for (place, word) in words.iter().enumerate() {
        if is_raw_file(&line, word) {
            places.kit_push(place)?;
        }
    }
    let are_several = line.has_several_files();
    Ok(RawFiles {
        places,
        are_several,
    })
}

/// Whether a word is no text, and names one of the command line's files.
fn is_raw_file(line: &CommandLine<'_>, word: &Argument) -> bool {
    word.raw.is_some() && line.has_file(word.text.as_str())
}

/// What names a file that is opened as standard input, if it can be.
fn input_name(name: &[u8]) -> Result<Option<String>, AllocError> {
    if !open_as_input(name) {
        return Ok(None);
    }
    let text = String::from_str("-")?;
    Ok(Some(text))
}

/// What names a file by a descriptor that is opened for it, if it can be.
fn descriptor_name(name: &[u8]) -> Result<Option<String>, AllocError> {
    let descriptor = crate::os::open_read(name);
    if descriptor < 0 {
        return Ok(None);
    }
    let text = format!("/dev/fd/{descriptor}")?;
    Ok(Some(text))
}

/// Whether a file was opened as standard input: the least descriptor that is free is the one just closed.
fn open_as_input(name: &[u8]) -> bool {
    crate::libc::close(STDIN_FILENO);
    crate::os::open_read(name) == STDIN_FILENO
}
