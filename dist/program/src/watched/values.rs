//! The values that requests bind, of fronts of messages whose bytes are changed at random: what is written is one line, or members of a JSON object, no longer
//! than the front allows, and no memory is asked for. CQLP_STREAMS is how many pairs of fronts there are, 20,000 where it is not set.
use crate::cqlp_bound_values::{put_values, put_values_members, values_bound_by};
use crate::cqlp_note::{Header, OfStd, Opcode};
use crate::cqlp_text::TextWriter;
use crate::digits::bytes_of;
use crate::heap::refusing;
use crate::json::{Scratch, Value};

/// What comes before the first column in the front of a PREPARED response for a statement of the id 0001, with so many columns: one digit of the number.
const METADATA: &str = "00000004 0002 0001 00000001 0000000";
/// The partition key has no columns; a table for all columns; and the name of the first one.
const TABLE: &str = "00000000 0002 6b73 0001 74 0001 61";
/// What comes before the values in the front of an EXECUTE of that statement, with so many.
const PARAMETERS: &str = "0002 0001 0001 01 000";

/// Type options, each with a content: a list, a set of lists, maps, a tuple, a user-defined type, and scalars.
const TYPED: [(&str, &str); 9] = [
    ("0020 0009", "00000002 00000004 00000007 ffffffff"),
    ("0022 0020 000d", "00000002 0000000a 00000001 00000002 610a 00000004 00000000"),
    ("0021 000d 0009", "00000001 00000001 61 00000004 00000007"),
    ("0021 0031 0002 0009 0003 0021 0009 0022 000d", "00000001 00000008 00000004 00000007 00000008 00000001 00000000 ffffffff"),
    ("0031 0003 0009 0020 0009 000d", "00000004 00000007 0000000c 00000001 00000004 00000008 00000002 c3a9"),
    ("0030 0002 6b73 0001 75 0002 0001 66 0009 0001 67 0031 0001 0022 0004", "00000004 00000007 0000000d 00000009 00000001 00000001 01"),
    ("14x0020 0009", "00000000"),
    ("000d", "61225c1b"),
    ("0009", "00000007"),
];

/// Numbers that look random, the same at each run.
struct Numbers(u64);

impl Numbers {
    fn below(&mut self, end: usize) -> usize {
        self.0 ^= self.0 << 13;
        self.0 ^= self.0 >> 7;
        self.0 ^= self.0 << 17;
        (self.0 >> 11) as usize % end
    }

    /// Up to so many bytes are other ones, more or fewer; and at most 256 are left.
    fn change(&mut self, front: &mut Vec<u8>, most: usize) {
        for _ in 0..self.below(most + 1) {
            let at = self.below(front.len());
            let byte = [0, 1, 2, 4, 8, 0x20, 0x21, 0x22, 0x30, 0x31, 0x7f, 0x80, 0xff][self.below(13)];
            match self.below(6) {
                0 => front.insert(at, byte),
                1 => drop(front.remove(at)),
                2 => front[at] ^= 1 << self.below(8),
                _ => front[at] = byte,
            }
        }
        front.truncate(if self.below(8) == 0 { self.below(256) } else { 256 });
    }
}

/// The fronts of an EXECUTE and of the PREPARED response, of one to four of those types.
fn fronts(numbers: &mut Numbers) -> (Vec<u8>, Vec<u8>) {
    let count = 1 + numbers.below(4);
    let mut execute = bytes_of(&format!("{PARAMETERS}{count}"));
    let mut prepared = bytes_of(&format!("{METADATA}{count} {TABLE}"));
    for number in 0..count {
        let (option, content) = TYPED[numbers.below(TYPED.len())];
        let content = bytes_of(content);
        prepared.extend(bytes_of(if number > 0 { "0001 62" } else { "" }));
        prepared.extend(bytes_of(option));
        execute.extend((content.len() as u32).to_be_bytes());
        execute.extend(content);
    }
    (execute, prepared)
}

/// What is written as a part of a line, or as members. No memory is asked for.
fn written(execute: &[u8], prepared: &[u8], as_members: bool) -> String {
    let mut room = [0; 4_096];
    let mut out = OfStd::new(&mut room[..]);
    let header = Header { response: false, flags: 0, stream: 0, opcode: Opcode::Execute, length: 0 };
    let (done, requests) = refusing(u64::MAX, u64::MAX, || {
        let mut writer = TextWriter::over(&mut out);
        let binding = values_bound_by(&header, execute, prepared);
        let put = if as_members { put_values_members(&mut writer, &binding) } else { put_values(&mut writer, &binding) };
        put.and(writer.flush()).is_ok()
    });
    assert_eq!((done, requests), (true, 0));
    let left = out.into_inner().len();
    String::from_utf8(room[..4_096 - left].to_vec()).unwrap()
}

#[test]
fn changed_values() {
    let count: usize = std::env::var("CQLP_STREAMS").map_or(20_000, |text| text.parse().unwrap());
    let mut numbers = Numbers(0x9e37_79b9_7f4a_7c15);
    let mut nested = 0;
    for _ in 0..count {
        let (mut execute, mut prepared) = fronts(&mut numbers);
        numbers.change(&mut execute, 6);
        numbers.change(&mut prepared, 3);
        let [line, members] = [false, true].map(|as_members| written(&execute, &prepared, as_members));
        let shown = format!("{execute:02x?} {prepared:02x?}: {line} {members}");
        assert!(line.chars().all(|letter| !letter.is_control()) && members.chars().all(|letter| !letter.is_control()), "{shown}");
        assert!(line.len().max(members.len()) <= 12 * execute.len() + 128, "{shown}");
        let (object, mut scratch) = (format!("{{\"a\":0{members}}}"), Scratch::new());
        assert!(Value::from_slice(object.as_bytes(), &mut scratch).is_ok(), "{shown}");
        nested += usize::from(line.contains("[[") || line.contains("{") || line.contains("("));
    }
    assert!(nested * 10 > count && nested < count, "{nested} of {count} have items");
}
