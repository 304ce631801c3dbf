//! Texts and types of statements from a file, piece by piece and in little memory.
use crate::cqlp_note::OfStd;
use crate::cqlp_statement_file::{StatementTexts, StatementsFault, read_statements};
use crate::cqlp_statement_types::{StatementTypes, read_statement_types};
use crate::heap::{measured, refusing};
use std::io::{self, Read};

const FILE: &str = " [json]\n----\n \
    {\"prepared_id\": \"0x0102\", \"query_string\": \"SELECT \\\\\"a\\\\\" FROM t\"}\n\
    {\"prepared_id\": \"ff\", \"query_string\": \"SELECT b\", \"more\": [1, {\"c\": null}]}\n\
    {\"prepared_id\": \"0x0102\", \"query_string\": \"SELECT later\"}\n\n(3 rows)\n";

/// Gives so many bytes at each read, and fails at the one with this number.
struct Pieces<'a> {
    bytes: &'a [u8],
    size: usize,
    fails_at: usize,
}

impl Read for Pieces<'_> {
    fn read(&mut self, buffer: &mut [u8]) -> io::Result<usize> {
        if self.fails_at == 0 {
            return Err(io::Error::other("fails"));
        }
        self.fails_at -= 1;
        let count = self.size.min(self.bytes.len()).min(buffer.len());
        let (piece, rest) = self.bytes.split_at(count);
        buffer[..count].copy_from_slice(piece);
        self.bytes = rest;
        Ok(count)
    }
}

fn read_in(text: &str, size: usize, fails_at: usize) -> Result<StatementTexts, StatementsFault> {
    read_statements(&mut OfStd::new(Pieces { bytes: text.as_bytes(), size, fails_at }))
}

fn found(texts: &StatementTexts, id: &[u8]) -> Option<(String, bool)> {
    texts.get(id).map(|text| (text.as_str().to_string(), text.is_whole()))
}

#[test]
fn a_file_in_pieces() {
    for size in 1..FILE.len() + 2 {
        let texts = read_in(FILE, size, usize::MAX).ok().unwrap();
        let wanted = [Some(("SELECT \"a\" FROM t".into(), true)), Some(("SELECT b".into(), true)), None];
        assert_eq!([&[1, 2][..], &[255], &[1]].map(|id| found(&texts, id)), wanted, "{size}");
        for fails_at in 0..FILE.len().div_ceil(size) + 1 {
            assert_eq!(read_in(FILE, size, fails_at).err(), Some(StatementsFault::Read), "{size} {fails_at}");
        }
    }
}

#[test]
fn a_file_in_little_memory() {
    let requests = refusing(u64::MAX, u64::MAX, || read_in(FILE, 9, usize::MAX).is_ok()).1;
    assert!(requests > 8);
    for number in 1..=requests {
        let ((fault, _), _, kept) = measured(|| refusing(number, number, || read_in(FILE, 9, usize::MAX).err()));
        assert_eq!((fault, kept), (Some(StatementsFault::NoMemory), 0), "{number}");
    }
    let (grown, most, kept) = measured(|| {
        let mut texts = StatementTexts::new();
        for number in 0..1000_u16 {
            texts.add(number.to_be_bytes().repeat(8)[..].to_vec().into(), &"é".repeat(300)).ok().unwrap();
        }
        texts.get(&3_u16.to_be_bytes().repeat(8)).is_some_and(|text| text.as_str() == "é".repeat(126) && !text.is_whole())
    });
    assert!(grown && kept == 0 && most < 1000 * 450, "{most}");
}

const WITH_TYPES: &str = "{\"keyspace_name\": \"k\", \"type_name\": \"u\", \"field_names\": [\"f\"], \"field_types\": [\"tuple<int, text>\"]}\n\
    {\"keyspace_name\": \"k\", \"table_name\": \"t\", \"column_name\": \"b\", \"kind\": \"regular\", \"position\": -1, \"type\": \"map<text, frozen<u>>\"}\n\
    {\"prepared_id\": \"0x0102\", \"logged_keyspace\": \"k\", \"query_string\": \"SELECT * FROM t\"}\n\
    {\"prepared_id\": \"0x03\", \"query_string\": \"SELECT b, count(*) AS x FROM k.t\"}\n\
    {\"prepared_id\": \"0x04\", \"query_string\": \"SELECT b FROM t\"}\n\
    {\"keyspace_name\": \"k\", \"table_name\": \"t\", \"column_name\": \"a\", \"kind\": \"partition_key\", \"position\": 0, \"type\": \"set<int>\"}\n";

fn types_in(text: &str, size: usize, fails_at: usize) -> Result<StatementTypes, StatementsFault> {
    read_statement_types(&mut OfStd::new(Pieces { bytes: text.as_bytes(), size, fails_at }))
}

/// How many columns a statement has, and how many types, inner ones among them.
fn counts(types: &StatementTypes, id: &[u8]) -> Option<(u32, u32)> {
    types.get(id).map(|table| (table.roots(), table.len()))
}

#[test]
fn types_in_pieces() {
    for size in [1, 2, 7, 100, WITH_TYPES.len(), WITH_TYPES.len() + 1] {
        let types = types_in(WITH_TYPES, size, usize::MAX).ok().unwrap();
        assert_eq!([&[1, 2][..], &[3], &[4], &[1]].map(|id| counts(&types, id)), [Some((2, 8)), Some((2, 7)), None, None], "{size}");
        for fails_at in 0..WITH_TYPES.len().div_ceil(size) + 1 {
            assert_eq!(types_in(WITH_TYPES, size, fails_at).err(), Some(StatementsFault::Read), "{size} {fails_at}");
        }
    }
}

#[test]
fn types_in_little_memory() {
    let requests = refusing(u64::MAX, u64::MAX, || types_in(WITH_TYPES, 9, usize::MAX).is_ok()).1;
    assert!(requests > 100);
    for number in 1..=requests {
        let ((fault, asked), _, kept) = measured(|| refusing(number, number, || types_in(WITH_TYPES, 9, usize::MAX).err()));
        assert!(fault == Some(StatementsFault::NoMemory) || asked > requests, "{number}: {fault:?}");
        assert_eq!(kept, 0, "{number}");
    }
}
