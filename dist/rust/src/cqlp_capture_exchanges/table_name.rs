// Written by dist/erase from crates/cqlp_capture_exchanges/src/table_name.rt.
//! The table that a statement names.

use crate::kit_host::prelude::{KitVec};
use crate::cqlp_capture_exchanges::label::Label;
use crate::cqlp_capture_exchanges::prepared::same_bytes;
use crate::cqlp_capture_summary::Fingerprint;

/// The name behind the first FROM, INTO, UPDATE or TRUNCATE \[TABLE\] of a statement of which these are the bytes, or the first ones: a table, behind its
/// keyspace and a dot where that is written. A word is in lower case, and what is in double quotes is as it is. `None` where a statement names none, or the
/// end of the name is not there.
pub(crate) fn table_name(statement: &[u8], is_whole: bool) -> Option<Label> {
    let fingerprint = Fingerprint::new(statement, is_whole);
    let mut search = Search::new();
    search.read(fingerprint.as_slice());
    search.finish(fingerprint.is_whole())
}

/// Where a name is looked for.
#[derive(Clone, Copy)]
enum Stage {
    /// Before FROM, INTO, UPDATE and TRUNCATE.
    Before,
    /// Behind TRUNCATE, which TABLE may follow.
    Truncate,
    /// Where a name is due.
    Due,
    /// Behind a name, of a table or of a keyspace.
    Name,
    /// Behind the dot after a keyspace.
    Dot,
    /// Behind the whole name.
    Found,
    /// Behind something else where a name was due.
    Missing,
}

/// What is being read.
#[derive(Clone, Copy)]
enum Piece {
    /// A space or a sign.
    Between,
    Word,
    /// A name in double quotes.
    Quoted,
    /// Behind a quote that ends a name, or is the first of two.
    QuotedEnd,
}

/// A fingerprint as far as it is read.
struct Search {
    stage: Stage,
    piece: Piece,
    /// The name as far as it is read, or another word.
    name: Label,
}

impl Search {
    fn new() -> Self {
        Search {
            stage: Stage::Before,
            piece: Piece::Between,
            name: Label::new(),
        }
    }

    fn read(&mut self, fingerprint: &[u8]) {
        for byte in fingerprint {
            self.read_byte(*byte);
        }
    }

    fn read_byte(&mut self, byte: u8) {
        match self.piece {
            Piece::Between => self.begin(byte),
            Piece::Word => self.in_word(byte),
            Piece::Quoted => self.take(in_quotes(byte), byte),
            Piece::QuotedEnd => self.behind_quote(byte),
        }
    }

    fn in_word(&mut self, byte: u8) {
        if is_word(byte) {
            self.take(Piece::Word, lower(byte));
        } else {
            self.end();
            self.begin(byte);
        }
    }

    fn behind_quote(&mut self, byte: u8) {
        if byte == b'"' {
            self.take(Piece::Quoted, byte);
        } else {
            self.end();
            self.begin(byte);
        }
    }

    /// A byte behind a whole piece.
    fn begin(&mut self, byte: u8) {
        if byte == b' ' {
            self.piece = Piece::Between;
        } else if is_word(byte) {
            self.open(Piece::Word, lower(byte));
        } else if byte == b'"' {
            self.open(Piece::Quoted, byte);
        } else if byte == b'.' {
            self.dot();
        } else {
            self.sign();
        }
    }

    /// The first byte of a word or of a name in double quotes.
    fn open(&mut self, piece: Piece, byte: u8) {
        match self.stage {
            Stage::Name => {
                self.stage = Stage::Found;
                self.piece = Piece::Between;
            }
            Stage::Dot => self.take(piece, byte),
            Stage::Found | Stage::Missing => {}
            Stage::Before | Stage::Truncate | Stage::Due => {
                self.name.clear();
                self.take(piece, byte);
            }
        }
    }

    fn dot(&mut self) {
        if let Stage::Name = self.stage {
            self.stage = Stage::Dot;
            self.take(Piece::Between, b'.');
        } else {
            self.sign();
        }
    }

    /// A sign or a literal.
    fn sign(&mut self) {
        self.stage = behind_sign(self.stage);
        self.piece = Piece::Between;
    }

    fn take(&mut self, piece: Piece, byte: u8) {
        self.piece = piece;
        self.name.kit_push(byte);
    }

    fn end(&mut self) {
        self.stage = behind_piece(self.piece, self.stage, self.name.as_slice());
        self.piece = Piece::Between;
    }

    /// The name, if all of it was read.
    fn finish(mut self, is_whole: bool) -> Option<Label> {
        if is_whole {
            self.end();
        }
        match self.stage {
            Stage::Found => Some(self.name),
            Stage::Name if is_whole => Some(self.name),
            _ => None,
        }
    }
}

/// Where a piece leads to.
fn behind_piece(piece: Piece, stage: Stage, word: &[u8]) -> Stage {
    match piece {
        Piece::Word => behind_word(stage, word),
        Piece::QuotedEnd => behind_quoted(stage),
        Piece::Between | Piece::Quoted => stage,
    }
}

fn behind_word(stage: Stage, word: &[u8]) -> Stage {
    match stage {
        Stage::Before if is_before_name(word) => Stage::Due,
        Stage::Before if same_bytes(word, b"truncate") => Stage::Truncate,
        Stage::Truncate if same_bytes(word, b"table") => Stage::Due,
        Stage::Truncate | Stage::Due => Stage::Name,
        Stage::Dot => Stage::Found,
        Stage::Before | Stage::Name | Stage::Found | Stage::Missing => stage,
    }
}

fn behind_quoted(stage: Stage) -> Stage {
    match stage {
        Stage::Truncate | Stage::Due => Stage::Name,
        Stage::Dot => Stage::Found,
        Stage::Before | Stage::Name | Stage::Found | Stage::Missing => stage,
    }
}

fn behind_sign(stage: Stage) -> Stage {
    match stage {
        Stage::Before => Stage::Before,
        Stage::Name | Stage::Found => Stage::Found,
        Stage::Truncate | Stage::Due | Stage::Dot | Stage::Missing => Stage::Missing,
    }
}

/// Whether a name follows this word.
fn is_before_name(word: &[u8]) -> bool {
    same_bytes(word, b"from") || same_bytes(word, b"into") || same_bytes(word, b"update")
}

/// What a byte of a name in double quotes is.
fn in_quotes(byte: u8) -> Piece {
    if byte == b'"' {
        Piece::QuotedEnd
    } else {
        Piece::Quoted
    }
}

/// A letter of ASCII in lower case, or another byte as it is.
fn lower(byte: u8) -> u8 {
    if b'A' <= byte && byte <= b'Z' {
        byte + 32
    } else {
        byte
    }
}

/// Whether a byte belongs to a word.
fn is_word(byte: u8) -> bool {
    matches!(byte, b'0'..=b'9' | b'A'..=b'Z' | b'a'..=b'z' | b'_' | 128..)
}
