// Writes values of six shapes with their lengths into a Vec that has room: by `write_value` of the library that dist/erase makes, and by
// hand, where each is trusted, and checked, where it is measured and compared with its type first. A line for each shape.
use cqlp::frame::{Atom, TypeTree, Value, write_value};
use cqlp::{Kind, OfStd};
use std::time::{Duration, Instant};

const TIMES: usize = 10_000;
const RUNS: usize = 1_000;

enum Hand {
    Int(i32),
    Bigint(i64),
    Varchar(String),
    Boolean(bool),
    List(Vec<Hand>),
    Map(Vec<(Hand, Hand)>),
}

enum HandType {
    Int,
    Bigint,
    Varchar,
    Boolean,
    List(Box<HandType>),
    Map(Box<HandType>, Box<HandType>),
}

fn put_int(out: &mut Vec<u8>, number: i32) {
    out.extend_from_slice(&number.to_be_bytes());
}

fn put_content(out: &mut Vec<u8>, content: &[u8]) {
    put_int(out, content.len() as i32);
    out.extend_from_slice(content);
}

/// Writes a value after its length, which is put in once it is known.
fn put_by_hand(out: &mut Vec<u8>, value: &Hand) {
    match value {
        Hand::Int(number) => return put_content(out, &number.to_be_bytes()),
        Hand::Bigint(number) => return put_content(out, &number.to_be_bytes()),
        Hand::Varchar(text) => return put_content(out, text.as_bytes()),
        Hand::Boolean(truth) => return put_content(out, &[u8::from(*truth)]),
        Hand::List(_) | Hand::Map(_) => {}
    }
    let start = out.len();
    put_int(out, 0);
    match value {
        Hand::List(items) => {
            put_int(out, items.len() as i32);
            items.iter().for_each(|item| put_by_hand(out, item));
        }
        Hand::Map(pairs) => {
            put_int(out, pairs.len() as i32);
            for (key, value) in pairs {
                put_by_hand(out, key);
                put_by_hand(out, value);
            }
        }
        _ => {}
    }
    let length = (out.len() - start - 4) as i32;
    out[start..start + 4].copy_from_slice(&length.to_be_bytes());
}

/// How many bytes a value has with its length, if it is of this type.
fn measure(value: &Hand, of: &HandType) -> Option<usize> {
    match (value, of) {
        (Hand::Int(_), HandType::Int) => Some(8),
        (Hand::Bigint(_), HandType::Bigint) => Some(12),
        (Hand::Varchar(text), HandType::Varchar) if !text.is_empty() => Some(4 + text.len()),
        (Hand::Boolean(_), HandType::Boolean) => Some(5),
        (Hand::List(items), HandType::List(of)) => items.iter().try_fold(8, |sum, item| Some(sum + measure(item, of)?)),
        (Hand::Map(pairs), HandType::Map(key_of, value_of)) => {
            pairs.iter().try_fold(8, |sum, (key, value)| Some(sum + measure(key, key_of)? + measure(value, value_of)?))
        }
        _ => None,
    }
}

fn letters(i: usize) -> String {
    format!("{i:016}")
}

fn int(i: usize) -> Value {
    Value::Leaf(Atom::Int(i as i32))
}

fn varchar(i: usize) -> Value {
    Value::Leaf(Atom::Varchar(letters(i).into()))
}

fn boxed(of: Kind) -> Box<TypeTree> {
    Box::new(TypeTree::Plain(of))
}

type Shape = (&'static str, Value, TypeTree, Hand, HandType);

fn shapes() -> Vec<Shape> {
    let ints = (0..8).map(int).collect::<Vec<_>>();
    let pairs = (0..3).map(|i| (varchar(i), int(i))).collect::<Vec<_>>();
    let hand_ints = (0..8).map(Hand::Int).collect();
    let hand_pairs = (0..3).map(|i| (Hand::Varchar(letters(i)), Hand::Int(i as i32))).collect();
    vec![
        ("int", int(7), TypeTree::Plain(Kind::Int), Hand::Int(7), HandType::Int),
        ("bigint", Value::Leaf(Atom::Bigint(7)), TypeTree::Plain(Kind::Bigint), Hand::Bigint(7), HandType::Bigint),
        ("varchar of 16 letters", varchar(7), TypeTree::Plain(Kind::Varchar), Hand::Varchar(letters(7)), HandType::Varchar),
        ("boolean", Value::Leaf(Atom::Boolean(true)), TypeTree::Plain(Kind::Boolean), Hand::Boolean(true), HandType::Boolean),
        ("list<int> of 8", Value::List(ints.into()), TypeTree::List(boxed(Kind::Int)), Hand::List(hand_ints), HandType::List(Box::new(HandType::Int))),
        (
            "map<varchar, int> of 3",
            Value::Map(pairs.into()),
            TypeTree::Map(boxed(Kind::Varchar), boxed(Kind::Int)),
            Hand::Map(hand_pairs),
            HandType::Map(Box::new(HandType::Varchar), Box::new(HandType::Int)),
        ),
    ]
}

/// The nanoseconds of one value: the best of many runs, which are short, so that some are not cut off where other programs run beside them.
fn once(mut write_hundred: impl FnMut()) -> f64 {
    let mut best = Duration::MAX;
    for _ in 0..RUNS {
        let start = Instant::now();
        (0..TIMES / 100).for_each(|_| write_hundred());
        best = best.min(start.elapsed());
    }
    best.as_secs_f64() * 1e9 / TIMES as f64
}

/// That of a writer into a Vec, which is emptied after a hundred values.
fn by_hand(mut write: impl FnMut(&mut Vec<u8>)) -> f64 {
    let mut out = Vec::with_capacity(1 << 16);
    once(|| {
        out.clear();
        (0..100).for_each(|_| write(&mut out));
        std::hint::black_box(&mut out);
    })
}

/// That of `write_value` into a Vec, which is emptied after a hundred values.
fn by_library(value: &Value, of: &TypeTree) -> f64 {
    let mut out = Vec::with_capacity(1 << 16);
    once(|| {
        out.clear();
        let mut target = OfStd::new(std::mem::take(&mut out));
        for _ in 0..100 {
            write_value(std::hint::black_box(value), Some(of), &mut target).unwrap();
        }
        out = target.into_inner();
        std::hint::black_box(&mut out);
    })
}

fn main() {
    for (name, value, of, hand, hand_of) in &shapes() {
        let (mut ours, mut theirs) = (OfStd::new(Vec::new()), Vec::new());
        write_value(value, Some(of), &mut ours).unwrap();
        put_by_hand(&mut theirs, hand);
        assert_eq!(ours.into_inner(), theirs);
        let trusted = by_hand(|out| put_by_hand(out, std::hint::black_box(hand)));
        let checked = by_hand(|out| {
            measure(std::hint::black_box(hand), hand_of).unwrap();
            put_by_hand(out, hand);
        });
        let written = by_library(value, of);
        println!("{name}: by hand {trusted:.1} ns, checked {checked:.1}, write_value {written:.1}, {:.2} of checked", written / checked);
    }
}
