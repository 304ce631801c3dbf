//! Scalars of their bytes, and the text of each, to a target with room for a part of it.
#![forbid(unsafe_code)]

use cqlp::text::cell_text;
use cqlp::{IoFault, Kind, Reason, Scalar, Target};

/// Takes at most three bytes a call, and fails where there is no more room.
struct Narrow {
    text: Vec<u8>,
    room: usize,
}

impl Target for Narrow {
    fn write(&mut self, bytes: &[u8]) -> Result<usize, IoFault> {
        let count = bytes.len().min(3).min(self.room - self.text.len());
        if count == 0 && !bytes.is_empty() {
            return Err(IoFault);
        }
        self.text.extend_from_slice(&bytes[..count]);
        Ok(count)
    }
}

const ROWS: [(Kind, &[u8], Result<&str, Reason>); 20] = [
    (Kind::Varint, &[0xff, 0x7f], Ok("-129")),
    (Kind::Varint, &[0, 0, 1], Ok("1")),
    (Kind::Decimal, &[0, 0, 0, 2, 0, 0x80], Ok("128e-2")),
    (Kind::Decimal, &[0, 0, 0, 2], Err(Reason::BadSize)),
    (Kind::Decimal, &[0x80, 0, 0, 0, 0, 0x80], Ok("128e2147483648")),
    (Kind::Boolean, &[5], Ok("true")),
    (Kind::Tinyint, &[0xff], Ok("-1")),
    (Kind::Tinyint, &[0, 1], Err(Reason::BadSize)),
    (Kind::Float, &[0x3f, 0x80, 0, 0], Ok("0x3f800000")),
    (Kind::Date, &[0x80, 0, 0, 0], Ok("1970-01-01")),
    (Kind::Date, &[0x80, 0, 0x2a, 0xcd], Ok("2000-01-01")),
    (Kind::Date, &[0, 0, 0, 0], Ok("day -2147483648")),
    (Kind::Time, &[0, 0, 0x4e, 0x94, 0x91, 0x4e, 0xff, 0xff], Ok("23:59:59.999999999")),
    (Kind::Time, &[0, 0, 0x4e, 0x94, 0x91, 0x4f, 0, 0], Err(Reason::BadScalar)),
    (Kind::Inet, &[0, 0, 0, 0, 0, 0, 0, 0, 0, 0, 0, 0, 0, 0, 0, 1], Ok("0000:0000:0000:0000:0000:0000:0000:0001")),
    (Kind::Ascii, &[0x80], Err(Reason::BadScalar)),
    (Kind::Varchar, &[0xc3, 0x28], Err(Reason::BadUtf8)),
    (Kind::Varchar, &[0x22, 0x5c, 0x7f], Ok(r#""\"\\\x7f""#)),
    (Kind::Timeuuid, &[0, 0, 0, 0, 0, 0, 0x10, 0, 0x80, 0, 0, 0, 0, 0, 0, 0], Ok("00000000-0000-1000-8000-000000000000")),
    (Kind::Timeuuid, &[0, 0, 0, 0, 0, 0, 0x40, 0, 0x80, 0, 0, 0, 0, 0, 0, 0], Err(Reason::BadScalar)),
];

#[test]
fn scalars_and_their_text() {
    for (kind, bytes, said) in ROWS {
        let scalar = Scalar::from_bytes(kind, bytes).unwrap();
        assert_eq!(scalar.err(), said.err(), "{kind:?} {bytes:x?}");
        let (Ok(scalar), Ok(text)) = (scalar, said) else { continue };
        for room in 0..=text.len() {
            let mut target = Narrow { text: Vec::new(), room };
            let is_whole = cell_text(&scalar, &mut target).is_ok();
            assert_eq!((is_whole, &target.text[..]), (room == text.len(), &text.as_bytes()[..room]), "{text} with room for {room}");
        }
    }
}
