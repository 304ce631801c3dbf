//! Types and values.

use super::words::{FromWords, Words};
use cqlp::Kind;
use cqlp::frame::{Atom, TypeTree, Value};

/// The kinds, by their names.
const KINDS: [(&str, Kind); 26] = [
    ("custom", Kind::Custom),
    ("ascii", Kind::Ascii),
    ("bigint", Kind::Bigint),
    ("blob", Kind::Blob),
    ("boolean", Kind::Boolean),
    ("counter", Kind::Counter),
    ("decimal", Kind::Decimal),
    ("double", Kind::Double),
    ("float", Kind::Float),
    ("int", Kind::Int),
    ("timestamp", Kind::Timestamp),
    ("uuid", Kind::Uuid),
    ("varchar", Kind::Varchar),
    ("varint", Kind::Varint),
    ("timeuuid", Kind::Timeuuid),
    ("inet", Kind::Inet),
    ("date", Kind::Date),
    ("time", Kind::Time),
    ("smallint", Kind::Smallint),
    ("tinyint", Kind::Tinyint),
    ("list", Kind::List),
    ("map", Kind::Map),
    ("set", Kind::Set),
    ("udt", Kind::Udt),
    ("tuple", Kind::Tuple),
    ("raw", Kind::Raw),
];

/// The kind of this name.
impl FromWords for Kind {
    fn from_words(words: &mut Words<'_>) -> Kind {
        let word = words.word();
        KINDS.iter().find(|(name, _)| *name == word).map_or_else(|| words.bad(word), |(_, kind)| *kind)
    }
}

/// The name of a kind, and its parameters; `class` and the name of a class; or `bare` and the name of a kind that is to stand
/// without its parameters.
impl FromWords for TypeTree {
    fn from_words(words: &mut Words<'_>) -> TypeTree {
        if words.accept("class") {
            return TypeTree::Custom(words.text());
        }
        if words.accept("bare") {
            return TypeTree::Plain(words.read());
        }
        match words.read() {
            Kind::List => TypeTree::List(words.read()),
            Kind::Set => TypeTree::Set(words.read()),
            Kind::Map => TypeTree::Map(words.read(), words.read()),
            Kind::Tuple => TypeTree::Tuple(words.list()),
            Kind::Udt => TypeTree::Udt { keyspace: words.text(), name: words.text(), fields: words.list() },
            kind => TypeTree::Plain(kind),
        }
    }
}

impl FromWords for Box<TypeTree> {
    fn from_words(words: &mut Words<'_>) -> Box<TypeTree> {
        Box::new(words.read())
    }
}

/// `null`, `empty`, or the name of a kind and what a value of it holds.
impl FromWords for Value {
    fn from_words(words: &mut Words<'_>) -> Value {
        if words.accept("null") {
            return Value::Null;
        }
        if words.accept("empty") {
            return Value::Empty;
        }
        match words.read() {
            Kind::List => Value::List(words.list()),
            Kind::Set => Value::Set(words.list()),
            Kind::Map => Value::Map(words.list()),
            Kind::Tuple => Value::Tuple(words.list()),
            Kind::Udt => Value::Udt(words.list()),
            kind => Value::Leaf(atom(words, kind)),
        }
    }
}

fn atom(words: &mut Words<'_>, kind: Kind) -> Atom {
    match kind {
        Kind::Custom => Atom::Custom(words.bytes()),
        Kind::Ascii => Atom::Ascii(words.text()),
        Kind::Bigint => Atom::Bigint(words.read()),
        Kind::Blob => Atom::Blob(words.bytes()),
        Kind::Boolean => Atom::Boolean(words.word().parse().unwrap()),
        Kind::Counter => Atom::Counter(words.read()),
        Kind::Decimal => Atom::Decimal { scale: words.read(), unscaled: words.bytes() },
        Kind::Double => Atom::Double(words.array()),
        Kind::Float => Atom::Float(words.array()),
        Kind::Int => Atom::Int(words.read()),
        Kind::Timestamp => Atom::Timestamp(words.read()),
        Kind::Uuid => Atom::Uuid(words.array()),
        Kind::Varchar => Atom::Varchar(words.text()),
        Kind::Varint => Atom::Varint(words.bytes()),
        Kind::Timeuuid => Atom::Timeuuid(words.array()),
        Kind::Inet => Atom::Inet(words.read()),
        Kind::Date => Atom::Date(words.read()),
        Kind::Time => Atom::Time(words.read()),
        Kind::Smallint => Atom::Smallint(words.read()),
        Kind::Tinyint => Atom::Tinyint(i8::from_be_bytes(words.array())),
        _ => Atom::Raw(words.bytes()),
    }
}
