//! Tables that are made of types, beside their nodes in preorder, and why there is none.
#![forbid(unsafe_code)]

use cqlp::frame::{Frame, Message, Metadata, Prepared, Spec, TypeTree, encode};
use cqlp::{Decoder, Kind, Limits, Node, OfStd, Step, TableError, TypeTable, table_of, table_of_specs};

const INT: TypeTree = TypeTree::Plain(Kind::Int);

/// A node: its kind, how many inner types it has, and how many nodes.
type Told = (Kind, u16, u32);

fn boxed(tree: TypeTree) -> Box<TypeTree> {
    Box::new(tree)
}

fn udt(name: &str, fields: Vec<(String, TypeTree)>) -> TypeTree {
    let fields: Vec<_> = fields.into_iter().collect();
    TypeTree::Udt { keyspace: "shop".to_string(), name: name.to_string(), fields }
}

/// Types, and the kind, the inner types and the span of each node.
#[test]
fn types_in_preorder() {
    let plain =
        [Kind::Ascii, Kind::Bigint, Kind::Blob, Kind::Boolean, Kind::Counter, Kind::Decimal, Kind::Double, Kind::Float, Kind::Timestamp];
    let plain =
        [&plain[..], &[Kind::Uuid, Kind::Varchar, Kind::Varint, Kind::Timeuuid, Kind::Inet, Kind::Date, Kind::Time, Kind::Smallint]]
            .concat();
    let plain = [&plain[..], &[Kind::Tinyint, Kind::Int]].concat();
    let wide = (0..65_535).map(|_| INT).collect::<Vec<_>>();
    let tables: [(Vec<TypeTree>, Vec<Told>); 9] = [
        (vec![], vec![]),
        (plain.iter().map(|kind| TypeTree::Plain(*kind)).collect(), plain.iter().map(|kind| (*kind, 0, 1)).collect()),
        (vec![TypeTree::Custom("a.B".to_string()), INT], vec![(Kind::Custom, 0, 1), (Kind::Int, 0, 1)]),
        (vec![TypeTree::List(boxed(INT))], vec![(Kind::List, 1, 2), (Kind::Int, 0, 1)]),
        (
            vec![TypeTree::Map(boxed(TypeTree::Set(boxed(INT))), boxed(INT)), INT],
            vec![(Kind::Map, 2, 4), (Kind::Set, 1, 2), (Kind::Int, 0, 1), (Kind::Int, 0, 1), (Kind::Int, 0, 1)],
        ),
        (vec![TypeTree::Tuple(vec![]), udt("none", vec![])], vec![(Kind::Tuple, 0, 1), (Kind::Udt, 0, 1)]),
        (
            vec![udt("é", vec![("x".repeat(65_535), TypeTree::Tuple(vec![INT, INT])), (String::new(), INT)])],
            vec![(Kind::Udt, 2, 5), (Kind::Tuple, 2, 3), (Kind::Int, 0, 1), (Kind::Int, 0, 1), (Kind::Int, 0, 1)],
        ),
        (vec![nested(200)], (0..200).map(|level| (Kind::List, 1, 201 - level)).chain([(Kind::Int, 0, 1)]).collect()),
        (vec![TypeTree::Tuple(wide)], [(Kind::Tuple, 65_535, 65_536)].into_iter().chain((0..65_535).map(|_| (Kind::Int, 0, 1))).collect()),
    ];
    for (types, wanted) in tables {
        let table = table_of(&types).unwrap();
        let nodes = (0..table.len()).map(|i| table.node(i).unwrap());
        assert!(nodes.eq(wanted.into_iter().map(|(kind, arity, span)| Node { kind, arity, span })), "{types:?}");
        assert_eq!((table.whole(), table.roots() as usize, table.room()), (true, types.len(), table.len()));
    }
}

fn nested(levels: usize) -> TypeTree {
    (0..levels).fold(INT, |inner, _| TypeTree::List(boxed(inner)))
}

/// Types of which one has no option, or which have too many bytes together, 4,100 times 65,539.
#[test]
fn types_without_a_table() {
    let custom = |len| TypeTree::Custom("x".repeat(len));
    let types = [
        (vec![INT, TypeTree::Plain(Kind::Raw)], TableError::NotWritable),
        (vec![TypeTree::Plain(Kind::Map)], TableError::NotWritable),
        (vec![custom(65_536), INT], TableError::NotWritable),
        (vec![TypeTree::Tuple((0..65_536).map(|_| INT).collect::<Vec<_>>())], TableError::NotWritable),
        (vec![udt("u", vec![("x".repeat(65_536), INT)])], TableError::NotWritable),
    ];
    for (types, wanted) in types {
        assert_eq!(table_of(&types).err(), Some(wanted));
        assert_eq!(table_of_specs(&specs(types)).err(), Some(wanted));
    }

    let mut types = (0..4_100).map(|_| custom(65_535)).collect::<Vec<_>>();
    assert_eq!(table_of(&types).err(), Some(TableError::TooLong));
    types.push(TypeTree::Plain(Kind::List));
    assert_eq!(table_of(&types).err(), Some(TableError::NotWritable));

    let mut specs = specs(types);
    assert_eq!(table_of_specs(&specs[..4_100]).err(), Some(TableError::TooLong));
    assert_eq!(table_of_specs(&specs).err(), Some(TableError::NotWritable));
    specs.truncate(1);
    specs[0].name = "x".repeat(65_536);
    assert_eq!(nodes(&table_of_specs(&specs).unwrap()), [(Kind::Custom, 0, 1)]);
}

/// Columns of these types.
fn specs(types: Vec<TypeTree>) -> Vec<Spec> {
    let spec = |(i, tree)| Spec { table: Some(("k".to_string(), "t".to_string())), name: format!("c{i}"), tree };
    types.into_iter().enumerate().map(spec).collect()
}

fn nodes(table: &TypeTable) -> Vec<Told> {
    (0..table.len()).map(|i| table.node(i).unwrap()).map(|Node { kind, arity, span }| (kind, arity, span)).collect()
}

/// The table of the last metadata in these bytes.
fn read_table(stream: &[u8]) -> TypeTable {
    let mut decoder = Decoder::new(Limits::DEFAULT).unwrap();
    let mut rest = stream;
    while let Step::Event { used, .. } = decoder.next(rest) {
        rest = &rest[used..];
    }
    assert_eq!(rest, []);
    decoder.table().clone_table().unwrap()
}

/// The specs of a PREPARED that a caller holds make the tables that a decoder reads from its bytes: that of the values that are to be bound
/// stands before the last eight bytes, which tell of no columns.
#[test]
fn specs_of_a_prepared() {
    let some = || vec![INT, TypeTree::List(boxed(TypeTree::Custom("a.B".to_string()))), udt("u", vec![("f".to_string(), nested(2))]), INT];
    let prepared = |bound: Vec<TypeTree>, columns: Option<Vec<TypeTree>>| {
        let (count, told) = (columns.as_ref().map_or(0, Vec::len) as u32, columns.is_some());
        let result = Metadata { flags: if told { 0 } else { 4 }, columns: count, paging: None, table: None, specs: columns.map(specs) };
        let (columns, specs) = (bound.len() as u32, specs(bound));
        Prepared { id: vec![7], flags: 0, columns, keys: vec![], table: None, specs, result }
    };
    for (bound, columns) in
        [(some(), None), (vec![], None), (some(), Some(vec![INT])), (vec![INT], Some(some())), (vec![INT], Some(vec![]))]
    {
        let frame = Frame::plain(0, Message::Prepared(prepared(bound, columns)));
        let mut bytes = OfStd::new(Vec::new());
        encode(&frame, &mut bytes).unwrap();
        let bytes = bytes.into_inner();
        let Message::Prepared(prepared) = &frame.message else { unreachable!() };
        let (specs, stream) = match &prepared.result.specs {
            Some(specs) => (specs, &bytes[..]),
            None => (&prepared.specs, &bytes[..bytes.len() - 8]),
        };
        let (made, read) = (table_of_specs(specs).unwrap(), read_table(stream));
        assert_eq!(nodes(&made), nodes(&read));
        assert_eq!((made.whole(), made.roots() as usize, made.room()), (true, specs.len(), made.len()));
    }
}
