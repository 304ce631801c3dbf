//! What cannot be met answers an error.
#![forbid(unsafe_code)]

use cqlp::capture::{CaptureReason, CaptureRefusal, NoSegment};
use cqlp::session::{ClientOf, RequestKind};
use cqlp::{Decoder, Header, Kind, Limits, Opcode, Reason, Scalar, Step, table_of};

#[test]
fn headers() {
    let header = Header { response: false, flags: 0, stream: -2, opcode: Opcode::Query, length: 9 };
    let bytes = header.to_bytes().unwrap();
    assert_eq!(bytes, [4, 0, 0xff, 0xfe, 7, 0, 0, 0, 9]);
    assert_eq!(Header::from_bytes(&bytes), Ok(header));
    assert_eq!(Header { response: true, ..header }.to_bytes(), None);
    assert_eq!(Header { length: Header::LONGEST_BODY + 1, ..header }.to_bytes(), None);
    assert_eq!(Header::from_bytes(&[5; 9]).unwrap_err().why, Reason::BadVersion);
}

#[test]
fn scalars() {
    assert_eq!(Scalar::from_bytes(Kind::Varchar, b"\xff\xfe"), Some(Err(Reason::BadUtf8)));
    assert_eq!(Scalar::from_bytes(Kind::Varchar, b"tea"), Some(Ok(Scalar::Varchar("tea"))));
    assert_eq!(Scalar::from_bytes(Kind::Ascii, "é".as_bytes()), Some(Err(Reason::BadScalar)));
    assert_eq!(Scalar::from_bytes(Kind::Int, &[]), Some(Err(Reason::BadSize)));
    assert_eq!(Scalar::from_bytes(Kind::Timeuuid, &[0; 3]), Some(Err(Reason::BadSize)));
    assert_eq!(Scalar::from_bytes(Kind::List, &[0; 4]), None);
}

#[test]
fn ids() {
    assert_eq!(Kind::Tuple.option_id(), Some(0x31));
    assert_eq!(Kind::Raw.option_id(), None);
}

/// What is refused goes through `?` into any error.
#[test]
fn errors() {
    fn refused() -> Result<Header, Box<dyn std::error::Error + Send + Sync>> {
        Ok(Header::from_bytes(&[5; 9])?)
    }
    assert_eq!(refused().unwrap_err().to_string(), "BadVersion at byte 0");
    let mut client = ClientOf::new(1).unwrap();
    let refused = client.begin(RequestKind::Query, "carried").unwrap_err();
    assert_eq!(refused.carried, "carried");
    assert_eq!(refused.to_string(), refused.why.to_string());
    assert_eq!(table_for_an_ended_stream().unwrap_err().to_string(), "the stream was refused");
    let why = NoSegment::CutInIp;
    let cut = Box::<dyn std::error::Error + Send + Sync>::from(why);
    assert_eq!(cut.to_string(), "CutInIp");
    let said = CaptureRefusal { at: 4, why: CaptureReason::UnknownMagic };
    assert_eq!(said.to_string(), "UnknownMagic at byte 4");
}

fn table_for_an_ended_stream() -> Result<(), Box<dyn std::error::Error>> {
    let mut decoder = Decoder::new(Limits::DEFAULT)?;
    assert!(matches!(decoder.next(&[5; 9]), Step::Refused(_)));
    decoder.give(table_of(&[])?)?;
    Ok(())
}
