//! The worked proxies that alter what passes: one renames a keyspace, the other redacts a column.
#![forbid(unsafe_code)]

#[path = "../examples/redact.rs"]
mod redact;
#[path = "../examples/rename.rs"]
mod rename;

use cqlp::cells::{CellError, CellLimits};
use cqlp::frame::{
    Atom, BatchEntry, BuildLimits, Composer, Frame, FrameBuilder, Message, Metadata, QueryParams, RawCells, Rows, Spec, TypeTree, Value,
    encode, raw_value,
};
use cqlp::{Decoder, Event, Fed, Kind, Limits, OfStd, Sink, SinkFault, table_of_specs};
use redact::Redactor;
use rename::{Names, relay_requests};

fn bytes_of(messages: Vec<Message>) -> Vec<u8> {
    let mut target = OfStd::new(Vec::new());
    for (message, stream) in messages.into_iter().zip(1..) {
        encode(&Frame::plain(stream, message), &mut target).unwrap();
    }
    target.into_inner()
}

fn query(text: &str, flags: u8) -> Message {
    let params = QueryParams { consistency: 1, flags, values: None, page_size: None, paging: None, serial: None, timestamp: None };
    Message::Query { text: text.to_string(), params }
}

fn page(secret: &str) -> Message {
    let spec = |name: &str, kind| Spec { table: None, name: name.to_string(), tree: TypeTree::Plain(kind) };
    let specs = vec![spec("id", Kind::Int), spec("secret", Kind::Varchar), spec("note", Kind::Varchar)];
    let table = Some(("ks".to_string(), "t".to_string()));
    let meta = Metadata { flags: 1, columns: 3, paging: None, table, specs: Some(specs) };
    let text = |text: &str| Value::scalar(Atom::Varchar(text.to_string()));
    let row = || [Value::Leaf(Atom::Int(7)), text(secret), text("seen")];
    let cells: Vec<Value> = row().into_iter().chain([Value::Null, Value::Null, text("seen")]).chain(row()).collect();
    Message::Rows(Rows { meta, rows: 3, cells })
}

/// In whatever pieces a page comes, the texts of the column are stars, and nothing else is.
#[test]
fn a_column_is_redacted() {
    let came = bytes_of(vec![page("swordfish"), Message::Ready, page("x")]);
    let wanted = bytes_of(vec![page("*********"), Message::Ready, page("*")]);
    for size in 1..=came.len() {
        let (mut redactor, mut altered) = (Redactor::new("secret").unwrap(), came.clone());
        altered.chunks_mut(size).for_each(|piece| redactor.alter(piece).unwrap());
        assert_eq!(altered, wanted, "pieces of {size} bytes");
    }
}

/// A page is asked for with its metadata, and one without it is refused.
#[test]
fn metadata_is_asked_for() {
    let mut asked = bytes_of(vec![query("SELECT", 2)]);
    Redactor::new("secret").unwrap().alter(&mut asked).unwrap();
    assert_eq!(asked, bytes_of(vec![query("SELECT", 0)]));
    let meta = Metadata { flags: 4, columns: 1, paging: None, table: None, specs: None };
    let raw = vec![Value::Leaf(Atom::Raw(b"swordfish".to_vec()))];
    let mut bare = bytes_of(vec![Message::Rows(Rows { meta, rows: 1, cells: raw })]);
    assert!(Redactor::new("secret").unwrap().alter(&mut bare).is_err());
}

/// Texts of requests are renamed, and what is no such request passes as it came, also of another version.
#[test]
fn a_keyspace_is_renamed() {
    let batch = |text: &str| {
        let entries = vec![BatchEntry::Text(text.to_string(), vec![])];
        Message::Batch { kind: 0, entries, consistency: 1, flags: 0, serial: None, timestamp: None }
    };
    let all = |name: &str| {
        let text = format!("SELECT * FROM {name}.t WHERE k = 'shop'");
        vec![Message::Options, query(&text, 0), Message::Prepare(text.clone()), batch(&text), query("USE other", 0)]
    };
    let mut came = bytes_of(all("shop"));
    let mut wanted = bytes_of(all("store2"));
    for side in [&mut came, &mut wanted] {
        side.extend(b"\x05\0\0\x01\x07\0\0\0\x03abc");
    }
    let (mut sent, names) = (Vec::new(), Names { from: "shop.".to_string(), to: "store2.".to_string() });
    relay_requests(&came[..], &mut sent, &names).unwrap();
    assert_eq!(sent, wanted);
}

/// The value and the bytes of one frame, of its events.
struct Made {
    builder: FrameBuilder,
    composer: Composer,
    frame: Option<Frame>,
}

impl Sink for Made {
    fn take(&mut self, _: u64, event: &Event<'_>) -> Result<(), SinkFault> {
        self.composer.take(event).map_err(|_| SinkFault)?;
        self.frame = self.builder.take(event).map_err(|_| SinkFault)?.map(|built| built.frame);
        Ok(())
    }
}

/// A page without metadata, two rows of three columns, and the columns.
fn bare_page() -> (Frame, [Spec; 3]) {
    let columns = [Spec::new("id", Kind::Int), Spec::new("tags", TypeTree::list(Kind::Varchar)), Spec::new("name", Kind::Varchar)];
    let tags = Value::List(vec![Value::from("x"), Value::Null, Value::Empty]);
    let cells = [Value::from(7), tags, Value::Null, Value::from(8), Value::Empty, Value::from("seen")];
    let cells = cells.iter().zip(columns.iter().cycle()).map(|(cell, column)| raw_value(cell, Some(&column.tree)).unwrap()).collect();
    let meta = Metadata { flags: 4, columns: 3, paging: None, table: None, specs: None };
    (Frame::plain(1, Message::Rows(Rows { meta, rows: 2, cells })), columns)
}

/// A page without metadata is built and composed as it came, whether its types were given to the decoder or not, in pieces of any size.
#[test]
fn a_page_of_given_types_is_built() {
    let (frame, columns) = bare_page();
    let bytes = frame.to_bytes().unwrap();
    let (build, cell) = (BuildLimits { fields: 100, depth: 4, bytes: 1_000 }, CellLimits { events: 5, bytes: 8 });
    for (is_given, size) in [true, false].iter().flat_map(|is_given| (1..=bytes.len()).map(move |size| (is_given, size))) {
        let mut decoder = Decoder::new(Limits::DEFAULT).unwrap();
        if *is_given {
            assert!(decoder.give(table_of_specs(&columns).unwrap()).unwrap().is_none());
        }
        let made = Made { builder: FrameBuilder::new(build), composer: Composer::new(build), frame: None };
        let mut cells = RawCells::new(&columns, cell, made);
        assert!(bytes.chunks(size).all(|piece| decoder.feed(piece, &mut cells) == Fed::More));
        assert_eq!(cells.take_error(), None);
        let made = cells.into_inner();
        assert_eq!((made.frame.as_ref(), &made.composer.write().unwrap()[..]), (Some(&frame), &bytes[..]));
    }
}

/// A cell beyond the limits, and one whose column is not described, are not handed on, and it says why.
#[test]
fn a_cell_is_not_handed_on() {
    let (frame, columns) = bare_page();
    let bytes = frame.to_bytes().unwrap();
    let given = |columns: &[Spec], events| {
        let mut decoder = Decoder::new(Limits::DEFAULT).unwrap();
        assert!(decoder.give(table_of_specs(&bare_page().1).unwrap()).unwrap().is_none());
        let build = BuildLimits { fields: 100, depth: 4, bytes: 1_000 };
        let made = Made { builder: FrameBuilder::new(build), composer: Composer::new(build), frame: None };
        let mut cells = RawCells::new(columns, CellLimits { events, bytes: 8 }, made);
        assert!(matches!(decoder.feed(&bytes, &mut cells), Fed::Fault { .. }));
        cells.take_error()
    };
    assert_eq!(given(&columns, 4), Some(CellError::TooManyEvents));
    assert_eq!(given(&columns[..1], 5), Some(CellError::NoValue));
}
