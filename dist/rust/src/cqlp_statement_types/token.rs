// Written by dist/erase from crates/cqlp_statement_types/src/token.rt.
//! The tokens of statements and of types.

use crate::kit_host::prelude::{KitVec, Vec};
use crate::kit_std::alloc::{AllocError};

/// A token of CQL, without what is between two.
#[derive(Clone, Copy)]
pub(crate) enum Token<'a> {
    /// Letters, digits and underscores.
    Word(&'a [u8]),
    /// What is between double quotes; there each is two.
    Quoted(&'a [u8]),
    /// A text in quotes or between two dollars.
    Text,
    /// Any other byte.
    Sign(u8),
}

/// What is being read.
#[derive(Clone, Copy)]
enum Mode {
    Between,
    /// A word that begins there.
    Word(usize),
    /// What is between double quotes and begins there.
    Quoted(usize),
    /// Behind a double quote that ends that, or is the first of two.
    QuotedEnd(usize),
    Text,
    Dash,
    Slash,
    Line,
    Block,
    /// A star in a block.
    Star,
    Dollar,
    Dollars,
    /// A dollar behind what is between dollars.
    DollarsEnd,
}

/// The tokens of a text as far as it is read.
struct Tokens<'a> {
    text: &'a [u8],
    mode: Mode,
    tokens: Vec<Token<'a>>,
}

/// The tokens of a text, without comments. `None` if it ends within one, or within quotes.
pub(crate) fn tokens_of<'a>(
    text: &'a [u8],
) -> Result<Option<Vec<Token<'a>>>, AllocError> {
    let mut reading = Tokens {
        text,
        mode: Mode::Between,
        tokens: Vec::new(),
    };
    for (at, byte) in text.iter().enumerate() {
        reading.take(at, *byte)?;
    }
    reading.take(text.len(), b'\n')?;
    let Tokens {
        text: _,
        mode,
        tokens,
    } = reading;
    match mode {
        Mode::Between => Ok(Some(tokens)),
        _ => Ok(None),
    }
}

impl<'a> Tokens<'a> {
    /// Takes the next byte, which lies there.
    fn take(&mut self, at: usize, byte: u8) -> Result<(), AllocError> {
        match self.mode {
            Mode::Between => self.begin(at, byte),
            Mode::Word(from) => self.in_word(from, at, byte),
            Mode::QuotedEnd(from) => self.behind_quote(from, at, byte),
            Mode::Dash => self.behind_dash(at, byte),
            Mode::Slash => self.behind_slash(at, byte),
            Mode::Dollar => self.behind_dollar(at, byte),
            Mode::DollarsEnd => self.behind_dollars(byte),
            Mode::Text => self.in_text(byte),
            Mode::Quoted(from) => {
                self.mode = in_quotes(from, byte);
                Ok(())
            }
            Mode::Line | Mode::Block | Mode::Star | Mode::Dollars => {
                self.mode = passed_over(self.mode, byte);
                Ok(())
            }
        }
    }

    /// A byte between two tokens.
    fn begin(&mut self, at: usize, byte: u8) -> Result<(), AllocError> {
        self.mode = mode_at(at, byte);
        match self.mode {
            Mode::Between if !is_space(byte) => self.kit_push(Token::Sign(byte)),
            _ => Ok(()),
        }
    }

    fn in_word(&mut self, from: usize, at: usize, byte: u8) -> Result<(), AllocError> {
        if is_word(byte) {
            return Ok(());
        }
        self.kit_push(Token::Word(part(self.text, from, at)))?;
        self.begin(at, byte)
    }

    fn behind_quote(&mut self, from: usize, at: usize, byte: u8) -> Result<(), AllocError> {
        if byte == b'"' {
            self.mode = Mode::Quoted(from);
            return Ok(());
        }
        self.kit_push(Token::Quoted(part(self.text, from, at.saturating_sub(1))))?;
        self.begin(at, byte)
    }

    fn behind_dash(&mut self, at: usize, byte: u8) -> Result<(), AllocError> {
        if byte == b'-' {
            self.mode = Mode::Line;
            return Ok(());
        }
        self.kit_push(Token::Sign(b'-'))?;
        self.begin(at, byte)
    }

    fn behind_slash(&mut self, at: usize, byte: u8) -> Result<(), AllocError> {
        match byte {
            b'/' => {
                self.mode = Mode::Line;
                Ok(())
            }
            b'*' => {
                self.mode = Mode::Block;
                Ok(())
            }
            _ => {
                self.kit_push(Token::Sign(b'/'))?;
                self.begin(at, byte)
            }
        }
    }

    fn behind_dollar(&mut self, at: usize, byte: u8) -> Result<(), AllocError> {
        if byte == b'$' {
            self.mode = Mode::Dollars;
            return Ok(());
        }
        self.kit_push(Token::Sign(b'$'))?;
        self.begin(at, byte)
    }

    fn behind_dollars(&mut self, byte: u8) -> Result<(), AllocError> {
        if byte != b'$' {
            self.mode = Mode::Dollars;
            return Ok(());
        }
        self.mode = Mode::Between;
        self.kit_push(Token::Text)
    }

    fn in_text(&mut self, byte: u8) -> Result<(), AllocError> {
        if byte != b'\'' {
            return Ok(());
        }
        self.mode = Mode::Between;
        self.kit_push(Token::Text)
    }

    fn kit_push(&mut self, token: Token<'a>) -> Result<(), AllocError> {
        self.tokens.kit_push(token)?;
        Ok(())
    }
}

/// What begins with a byte, which lies there.
fn mode_at(at: usize, byte: u8) -> Mode {
    match byte {
        b'"' => Mode::Quoted(at.saturating_add(1)),
        b'\'' => Mode::Text,
        b'-' => Mode::Dash,
        b'/' => Mode::Slash,
        b'$' => Mode::Dollar,
        _ if is_word(byte) => Mode::Word(at),
        _ => Mode::Between,
    }
}

fn in_quotes(from: usize, byte: u8) -> Mode {
    if byte == b'"' {
        Mode::QuotedEnd(from)
    } else {
        Mode::Quoted(from)
    }
}

/// What follows a byte of a comment, or between dollars.
fn passed_over(mode: Mode, byte: u8) -> Mode {
    match (mode, byte) {
        (Mode::Line, b'\n') | (Mode::Star, b'/') => Mode::Between,
        (Mode::Block | Mode::Star, b'*') => Mode::Star,
        (Mode::Star, _) => Mode::Block,
        (Mode::Dollars, b'$') => Mode::DollarsEnd,
        _ => mode,
    }
}

/// The bytes between two places, as far as there are such.
fn part(text: &[u8], from: usize, to: usize) -> &[u8] {
    let end = to.min(text.len());
    let start = from.min(end);
    &text[start..end]
}

fn is_word(byte: u8) -> bool {
    matches!(byte, b'0'..=b'9' | b'A'..=b'Z' | b'a'..=b'z' | b'_')
}

fn is_space(byte: u8) -> bool {
    matches!(byte, b' ' | b'\t' | b'\r' | b'\n')
}
