//! What dist/shims/cli/json.rs reads, beside json_texts.txt: a line for each text, its bytes in hexadecimal digits, and what dist/json_texts says that
//! it is by Python's reader. The kit's own `json` says the same of each.
use crate::json::{Scratch, Value};
use std::fmt::Write;

fn shown(value: &Value<'_>, out: &mut String) {
    match value {
        Value::Null => out.push_str("null"),
        Value::Bool(is_true) => write!(out, "{is_true}").unwrap(),
        Value::Number(digits) => out.push_str(digits),
        Value::String(text) => shown_text(text, out),
        Value::Array(items) => {
            out.push('[');
            for (at, item) in items.iter().enumerate() {
                out.push_str(if at > 0 { "," } else { "" });
                shown(item, out);
            }
            out.push(']');
        }
        Value::Object(members) => {
            out.push('{');
            for (at, (name, member)) in members.iter().enumerate() {
                out.push_str(if at > 0 { "," } else { "" });
                shown_text(name, out);
                out.push(':');
                shown(member, out);
            }
            out.push('}');
        }
    }
}

fn shown_text(text: &str, out: &mut String) {
    let digits: String = text.bytes().map(|byte| format!("{byte:02x}")).collect();
    write!(out, "\"{digits}\"").unwrap();
}

#[test]
fn texts_are_read_as_by_other_readers() {
    let mut scratch = Scratch::new();
    let mut count = 0;
    for line in include_str!("json_texts.txt").lines() {
        let (digits, wanted) = line.split_once(' ').unwrap();
        let bytes: Vec<u8> = digits.as_bytes().chunks(2).map(|pair| u8::from_str_radix(std::str::from_utf8(pair).unwrap(), 16).unwrap()).collect();
        let mut said = String::new();
        match Value::from_slice(&bytes, &mut scratch) {
            Ok(value) => shown(&value, &mut said),
            Err(_) => said.push_str("invalid"),
        }
        assert_eq!(said, wanted, "{}", String::from_utf8_lossy(&bytes));
        count += 1;
    }
    assert!(count > 100);
}

#[test]
fn a_member_that_comes_twice_is_the_last() {
    let mut scratch = Scratch::new();
    let value = Value::from_slice(br#"{"a": 1, "b": [7, "x\n"], "\u0061": 2, "c": -2, "d": 1.5, "e": 18446744073709551616}"#, &mut scratch);
    let Ok(value) = value else { panic!() };
    let number = |name| value.get(name).and_then(Value::as_u64);
    assert_eq!(["a", "c", "d", "e", "f"].map(number), [Some(2), None, None, None, None]);
    let list = value.get("b").unwrap();
    assert_eq!((list.at(0).and_then(Value::as_u64), list.at(1).and_then(Value::as_str), list.at(2).is_none()), (Some(7), Some("x\n"), true));
    assert!(list.get("a").is_none() && value.at(0).is_none() && value.as_str().is_none());
}
