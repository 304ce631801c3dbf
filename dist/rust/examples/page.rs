//! Writes a response with a page of two rows to standard output: `cargo run --example page | cargo run --example rows`
#![forbid(unsafe_code)]

use cqlp::frame::{Atom, Frame, Message, Metadata, Rows, Spec, TypeTree, Value, encode};
use cqlp::{Kind, OfStd};
use std::io::{Write, stdout};

fn column(name: &str, kind: Kind) -> Spec {
    Spec { table: None, name: name.to_string(), tree: TypeTree::Plain(kind) }
}

fn main() -> Result<(), Box<dyn std::error::Error>> {
    let meta = Metadata {
        flags: 1,
        columns: 2,
        paging: None,
        table: Some(("shop".to_string(), "item".to_string())),
        specs: Some(vec![column("id", Kind::Int), column("name", Kind::Varchar)]),
    };
    let cells: Vec<Value> = [(1, "tea"), (2, "salt")]
        .into_iter()
        .flat_map(|(id, name)| [Atom::Int(id), Atom::Varchar(name.to_string())].map(Value::Leaf))
        .collect();
    let message = Message::Rows(Rows { meta, rows: 2, cells });
    let frame = Frame { flags: 0, stream: 7, tracing: None, warnings: None, payload: None, message };
    let mut out = OfStd::new(stdout().lock());
    encode(&frame, &mut out)?;
    Ok(out.into_inner().flush()?)
}
