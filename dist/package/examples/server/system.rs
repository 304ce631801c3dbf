//! The tables of the system, which drivers read when they connect: of this node, of other nodes, which there are none, and of the schema, of
//! which nothing is said.

use super::table::{Table, Type, text};
use cqlp::Kind;
use cqlp::frame::{Atom, Value};
use cqlp::memory::AllocError;
use std::net::Ipv4Addr;

const INET: Type = Type::Plain(Kind::Inet);
const UUID: Type = Type::Plain(Kind::Uuid);

/// The id of the node, and of its schema.
const ID: [u8; 16] = [0x6b, 0xa7, 0xb8, 0x10, 0x9d, 0xad, 0x41, 0xd1, 0x80, 0xb4, 0x00, 0xc0, 0x4f, 0xd4, 0x30, 0xc8];

/// The tables of the schema.
const SCHEMA: [&str; 9] = ["aggregates", "columns", "functions", "indexes", "keyspaces", "tables", "triggers", "types", "views"];

pub fn tables() -> Result<Vec<Table>, AllocError> {
    let peers = Table::new("system", "peers", &[("peer", INET)]);
    let schema = SCHEMA.map(|name| Table::new("system_schema", name, &[("keyspace_name", Type::TEXT)]));
    [local(), peers].into_iter().chain(schema).collect()
}

/// The table `system.local`, which has one row.
fn local() -> Result<Table, AllocError> {
    let here = || Value::from(Ipv4Addr::LOCALHOST);
    let id = || Value::Leaf(Atom::Uuid(ID));
    let cells = [
        ("key", Type::TEXT, text("local")),
        ("bootstrapped", Type::TEXT, text("COMPLETED")),
        ("cluster_name", Type::TEXT, text("cqlp")),
        ("cql_version", Type::TEXT, text("3.4.4")),
        ("data_center", Type::TEXT, text("dc1")),
        ("native_protocol_version", Type::TEXT, text("4")),
        ("partitioner", Type::TEXT, text("org.apache.cassandra.dht.Murmur3Partitioner")),
        ("rack", Type::TEXT, text("r1")),
        ("release_version", Type::TEXT, text("3.11.4")),
        ("broadcast_address", INET, here()),
        ("listen_address", INET, here()),
        ("rpc_address", INET, here()),
        ("host_id", UUID, id()),
        ("schema_version", UUID, id()),
        ("tokens", Type::Set(Kind::Varchar), Value::Set(vec![text("0")])),
    ];
    let mut table = Table::new("system", "local", &cells.each_ref().map(|(name, of, _)| (*name, *of)))?;
    table.rows.push(cells.map(|(_, _, value)| value).into());
    Ok(table)
}
