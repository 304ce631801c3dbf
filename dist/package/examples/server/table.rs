//! Tables in memory.

use super::problem::Problem;
use cqlp::frame::{Atom, Spec, TypeTree, Value, read_value};
use cqlp::memory::{AllocError, try_box};
use cqlp::{Kind, Limits};

/// The type of a column.
#[derive(Clone, Copy, Debug, PartialEq, Eq)]
pub enum Type {
    Plain(Kind),
    List(Kind),
    Set(Kind),
}

impl Type {
    pub const INT: Type = Type::Plain(Kind::Int);
    pub const TEXT: Type = Type::Plain(Kind::Varchar);

    /// The type as a tree, by which the library reads and writes values.
    fn tree(self) -> Result<TypeTree, AllocError> {
        let inner = |kind| try_box(TypeTree::Plain(kind));
        Ok(match self {
            Type::Plain(kind) => TypeTree::Plain(kind),
            Type::List(kind) => TypeTree::List(inner(kind)?),
            Type::Set(kind) => TypeTree::Set(inner(kind)?),
        })
    }
}

/// A column. The first of a table is its partition key.
pub struct Column {
    pub name: String,
    pub of: Type,
    pub tree: TypeTree,
}

impl Column {
    /// What replies say of the column.
    pub fn spec(&self) -> Result<Spec, AllocError> {
        Ok(Spec { table: None, name: self.name.clone(), tree: self.of.tree()? })
    }

    /// The value of the column with this content.
    pub fn read(&self, content: &[u8]) -> Option<Value> {
        let len = u32::try_from(content.len()).ok()?;
        let cell = [&len.to_be_bytes()[..], content].concat();
        read_value(&Limits::DEFAULT, Some(&self.tree), &cell).ok()
    }

    /// The value of the column that a literal is; only of ints and texts.
    pub fn parse(&self, literal: &str) -> Option<Value> {
        match self.of {
            Type::INT => literal.parse::<i32>().ok().map(Value::from),
            Type::TEXT => literal.strip_prefix('\'')?.strip_suffix('\'').map(text),
            _ => None,
        }
    }
}

/// A table. Each row has a cell for each column.
pub struct Table {
    pub keyspace: String,
    pub name: String,
    pub columns: Vec<Column>,
    pub rows: Vec<Vec<Value>>,
}

impl Table {
    /// A table with these columns and no rows.
    pub fn new(keyspace: &str, name: &str, columns: &[(&str, Type)]) -> Result<Table, AllocError> {
        let column = |&(name, of): &(&str, Type)| of.tree().map(|tree| Column { name: name.to_string(), of, tree });
        let columns = columns.iter().map(column).collect::<Result<_, _>>()?;
        Ok(Table { keyspace: keyspace.to_string(), name: name.to_string(), columns, rows: Vec::new() })
    }

    /// The place of the column with this name.
    pub fn column(&self, name: &str) -> Result<usize, Problem> {
        self.columns.iter().position(|column| column.name == name).ok_or_else(|| Problem::invalid("undefined column name"))
    }
}

/// A cell of a column of the type text.
pub fn text(text: &str) -> Value {
    Value::scalar(Atom::Varchar(text.to_string()))
}
