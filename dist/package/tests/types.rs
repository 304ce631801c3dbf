//! The table of types of a decoder, while the columns of a page are read and once they are.
#![forbid(unsafe_code)]

use cqlp::{Decoder, Kind, Limits, Step, TypeTable};

const LIMITS: Limits = Limits { text: 64, cell: 64, entries: 8, depth: 4, types: true, parts: false };

/// The front of a page of two columns, up to the type of the first one; and what comes between the types.
const FRONT: &[u8] = b"\x84\0\0\0\x08\0\0\x01\0\0\0\0\x02\0\0\0\x01\0\0\0\x02\0\0\0\0\0\x01c";
const BETWEEN: &[u8] = b"\0\x01d";

/// A decoder that has read all of these bytes.
fn decoder(pieces: &[&[u8]]) -> Decoder {
    let bytes = pieces.concat();
    let mut decoder = Decoder::new(LIMITS).unwrap();
    let mut rest = &bytes[..];
    while let Step::Event { used, .. } = decoder.next(rest) {
        rest = &rest[used..];
    }
    assert!(matches!(decoder.next(&[]), Step::More { .. }));
    decoder
}

/// A node: its kind, how many inner types it has, how many nodes its type has, and where its inner types begin.
type Shown = (Kind, u16, u32, Vec<u32>);

/// The nodes of a table, and where the types begin.
fn walk(table: &TypeTable) -> (Vec<Shown>, Vec<u32>) {
    let inner = |i| (0..3).map_while(|child| table.child(i, child)).collect();
    let nodes = (0..9).map_while(|i| table.node(i).map(|node| (node.kind, node.arity, node.span, inner(i)))).collect();
    (nodes, (0..9).map_while(|i| table.root(i)).collect())
}

/// A list of ints, and then a map from texts to lists that breaks off.
#[test]
fn options_in_one_table() {
    let list = (Kind::List, 1, 2, vec![1]);
    let int = (Kind::Int, 0, 1, vec![]);
    let one = decoder(&[FRONT, &[0, 0x20, 0, 9]]);
    let two = decoder(&[FRONT, &[0, 0x20, 0, 9], BETWEEN, &[0, 0x21, 0, 0x0D, 0, 0x20]]);
    let (one, two) = (one.table().clone_table().unwrap(), two.table().clone_table().unwrap());
    assert_eq!((one.len(), one.room(), one.roots(), one.whole()), (2, 8, 1, true));
    assert_eq!(walk(&one), (vec![list.clone(), int.clone()], vec![0]));
    assert_eq!((two.len(), two.room(), two.roots(), two.whole()), (5, 8, 2, false));
    let map = (Kind::Map, 2, 0, vec![3, 4]);
    assert_eq!(walk(&two), (vec![list, int, map, (Kind::Varchar, 0, 1, vec![]), (Kind::List, 1, 0, vec![])], vec![0, 2]));
}

#[test]
fn a_table_is_as_deep_as_its_types() {
    let rows: [(&[u8], u32); 6] = [
        (&[], 0),
        (&[0, 9], 1),
        // list<map<int, list<blob>>>
        (&[0, 0x20, 0, 0x21, 0, 9, 0, 0x20, 0, 3], 4),
        // A user-defined type without fields.
        (&[0, 0x30, 0, 1, b'k', 0, 1, b'u', 0, 0], 1),
        // tuple<list<int>, ..
        (&[0, 0x31, 0, 2, 0, 0x20, 0, 9], 3),
        // tuple<int, set<..
        (&[0, 0x31, 0, 2, 0, 9, 0, 0x22], 2),
    ];
    for (option, depth) in rows {
        assert_eq!(decoder(&[FRONT, option]).table().depth(), depth, "{option:?}");
    }
}

/// A page of no rows and two columns, a list of ints and a text.
#[test]
fn a_decoder_shows_the_types_of_a_page() {
    let mut page = [FRONT, &[0, 0x20, 0, 9], BETWEEN, &[0, 0x0D], &[0; 4]].concat();
    page[7..9].copy_from_slice(&[0, 32]);
    let decoder = decoder(&[&page]);
    let table = decoder.table();
    assert_eq!((table.len(), table.room(), table.roots(), table.whole()), (3, 8, 2, true));
    let nodes = vec![(Kind::List, 1, 2, vec![1]), (Kind::Int, 0, 1, vec![]), (Kind::Varchar, 0, 1, vec![])];
    assert_eq!(walk(table), (nodes, vec![0, 2]));
}
