//! What programs own: copies, hashes, and conversions from std's types and back.
#![forbid(unsafe_code)]

use cqlp::frame::{Atom, Frame, Message, Metadata, Spec, TypeTree, Value};
use cqlp::{Kind, Limits, OtherValue};
use std::collections::HashSet;
use std::net::IpAddr;

fn values() -> Vec<Value> {
    let items = || vec![Value::from(1), Value::Null];
    vec![
        Value::default(),
        Value::Empty,
        Value::from("text"),
        Value::from(vec![1_u8, 2]),
        Value::from(IpAddr::from([127, 0, 0, 1])),
        Value::Leaf(Atom::Decimal { scale: 2, unscaled: vec![1] }),
        Value::List(items()),
        Value::Set(items()),
        Value::Map(vec![(Value::from(1), Value::from("one"))]),
        Value::Tuple(items()),
        Value::Udt(items()),
    ]
}

fn frames() -> Vec<Frame> {
    let columns = || vec![Spec::new("m", TypeTree::map(Kind::Int, TypeTree::set(Kind::Varchar))), Spec::new("i", Kind::Int)];
    let messages = [
        Message::startup(),
        Message::Options,
        Message::supported(&[("COMPRESSION", &["lz4"])]),
        Message::unprepared(b"id"),
        Message::bare_rows(Metadata::of_table("ks", "t", columns()).with_paging_state(vec![1]), 0),
        Message::rows("ks", "t", columns(), vec![Value::Null, Value::from(1), Value::Null]),
    ];
    messages.into_iter().map(|message| Frame::plain(1, message)).collect()
}

/// A copy is equal, and has the same hash; others are other members of a set.
#[test]
fn copies_are_equal() {
    assert_eq!(values().iter().cloned().collect::<HashSet<_>>(), values().into_iter().collect());
    assert_eq!(values().iter().collect::<HashSet<_>>().len(), values().len());
    assert_eq!(frames().iter().cloned().collect::<HashSet<_>>(), frames().into_iter().collect());
    assert_eq!(frames().iter().collect::<HashSet<_>>().len(), frames().len());
    assert!(frames().iter().all(|frame| frame.unfit().is_none()));
    assert_eq!(Limits::default(), Limits::DEFAULT);
}

/// A value of a type becomes one of std's and is the same again; any other comes back with the type that was wanted.
#[test]
fn values_become_types_of_std() {
    macro_rules! there_and_back {
        ($($type:ty: $($value:expr),+;)+) => {$($(
            assert_eq!(<$type>::try_from(Value::from($value)), Ok(<$type>::from($value)));
        )+)+};
    }
    there_and_back! {
        i8: 1_i8;
        i16: 2_i16;
        i32: 3_i32;
        i64: 4_i64;
        f32: 0.5_f32;
        f64: 0.25_f64;
        bool: true, false;
        IpAddr: IpAddr::from([1, 2, 3, 4]), IpAddr::from([7_u16; 8]);
        String: "text", "";
        Vec<u8>: vec![1_u8], Vec::<u8>::new();
    }
    let other = OtherValue { wanted: "i32", value: Value::from("3") };
    assert_eq!(i32::try_from(Value::from("3")), Err(other.clone()));
    assert!(other.to_string().starts_with("i32 is wanted, and Leaf(Varchar("));
}

/// Compression is neither asked for nor offered.
#[test]
fn compression_is_left_out() {
    let asked = Message::Startup(vec![("CQL_VERSION".into(), "3.0.0".into()), ("compression".into(), "lz4".into())]);
    assert_eq!(asked.without_compression(), Message::startup());
    let offered = Message::supported(&[("COMPRESSION", &["lz4", "snappy"]), ("CQL_VERSION", &["3.4.4"])]);
    assert_eq!(offered.without_compression(), Message::supported(&[("COMPRESSION", &[]), ("CQL_VERSION", &["3.4.4"])]));
    assert_eq!(Message::Ready.without_compression(), Message::Ready);
}
