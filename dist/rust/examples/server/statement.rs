//! Statements of CQL, as far as this server knows them.

use super::problem::Problem;
use super::table::{Column, Table};
use cqlp::frame::{OwnedBound, Value};

/// How many columns a `SELECT` may name.
const MOST_COLUMNS: usize = 64;

/// A statement.
pub enum Statement<'a> {
    /// `USE` of the keyspace with this name.
    Use(String),
    Select(Select<'a>),
}

/// A `SELECT` of some columns of a table.
pub struct Select<'a> {
    pub table: &'a Table,
    /// The places of the columns in the table.
    pub columns: Vec<usize>,
    /// What a row has to meet.
    pub condition: Option<Condition>,
}

/// That the column at this place has a value. None is a marker, to which a value has to be bound.
pub struct Condition {
    pub column: usize,
    pub value: Option<Value>,
}

impl<'a> Statement<'a> {
    /// Reads a statement on one of these tables.
    pub fn parse(statement: &str, tables: &'a [Table]) -> Result<Statement<'a>, Problem> {
        let mut words = Words(statement.trim_end().trim_end_matches(';'));
        let verb = words.word()?;
        let statement = if verb.eq_ignore_ascii_case("SELECT") {
            Statement::Select(words.select(tables)?)
        } else if verb.eq_ignore_ascii_case("USE") {
            Statement::Use(words.keyspace(tables)?)
        } else {
            return Err(Problem::syntax());
        };
        if words.is_empty() { Ok(statement) } else { Err(Problem::syntax()) }
    }
}

impl Select<'_> {
    /// The column to which a value has to be bound, and its place in the table.
    pub fn marker(&self) -> Option<(usize, &Column)> {
        let condition = self.condition.as_ref().filter(|condition| condition.value.is_none())?;
        Some((condition.column, &self.table.columns[condition.column]))
    }

    /// Gives the marker its value, if there is a marker.
    pub fn bind(&mut self, bound: Option<&OwnedBound>) -> Result<(), Problem> {
        let Some(Condition { column, value: value @ None }) = &mut self.condition else {
            return Ok(());
        };
        let Some(OwnedBound::Bytes(content)) = bound else {
            return Err(no_value());
        };
        *value = Some(self.table.columns[*column].read(content).ok_or_else(no_value)?);
        Ok(())
    }

    /// The places of the rows that meet the condition.
    pub fn rows(&self) -> Vec<usize> {
        let rows = &self.table.rows;
        match &self.condition {
            None => (0..rows.len()).collect(),
            Some(Condition { column, value }) => (0..rows.len()).filter(|row| value.as_ref() == Some(&rows[*row][*column])).collect(),
        }
    }
}

fn no_value() -> Problem {
    Problem::invalid("a condition needs a value of its column's type")
}

/// The words of a statement that are still to be read.
struct Words<'s>(&'s str);

impl<'s> Words<'s> {
    fn is_empty(&self) -> bool {
        self.0.trim_start().is_empty()
    }

    /// The next word: a name or a number, a text or a name with its quotes, or a sign.
    fn word(&mut self) -> Result<&'s str, Problem> {
        let rest = self.0.trim_start();
        let len = match rest.chars().next() {
            Some(quote @ ('\'' | '"')) => rest[1..].find(quote).map(|len| len + 2),
            Some(first) if is_of_name(first) => rest.find(|c| !is_of_name(c)).or(Some(rest.len())),
            first => first.map(char::len_utf8),
        };
        let (word, rest) = rest.split_at(len.ok_or_else(Problem::syntax)?);
        self.0 = rest;
        Ok(word)
    }

    fn expect(&mut self, word: &str) -> Result<(), Problem> {
        if self.word()?.eq_ignore_ascii_case(word) { Ok(()) } else { Err(Problem::syntax()) }
    }

    /// The next word, without the quotes that a name may have.
    fn name(&mut self) -> Result<&'s str, Problem> {
        Ok(self.word()?.trim_matches('"'))
    }

    /// What follows `USE`.
    fn keyspace(&mut self, tables: &[Table]) -> Result<String, Problem> {
        let name = self.name()?;
        let is_there = tables.iter().any(|table| table.keyspace == name);
        is_there.then(|| name.to_string()).ok_or_else(|| Problem::invalid("no keyspace has this name"))
    }

    /// What follows `SELECT`.
    fn select<'a>(&mut self, tables: &'a [Table]) -> Result<Select<'a>, Problem> {
        let names = self.names_before_from()?;
        let name = self.name()?;
        let table = tables.iter().find(|table| name.split_once('.') == Some((&table.keyspace, &table.name)));
        let table = table.ok_or_else(|| Problem::invalid("unconfigured table"))?;
        let columns = match names[..] {
            ["*"] => (0..table.columns.len()).collect(),
            _ => names.into_iter().map(|name| table.column(name)).collect::<Result<_, _>>()?,
        };
        let condition = if self.is_empty() { None } else { Some(self.condition(table)?) };
        Ok(Select { table, columns, condition })
    }

    /// Names with commas between them, and `FROM` after them.
    fn names_before_from(&mut self) -> Result<Vec<&'s str>, Problem> {
        let mut names = Vec::new();
        for _ in 0..MOST_COLUMNS {
            names.push(self.name()?);
            match self.word()? {
                "," => {}
                word if word.eq_ignore_ascii_case("FROM") => return Ok(names),
                _ => return Err(Problem::syntax()),
            }
        }
        Err(Problem::invalid("more than 64 columns"))
    }

    /// `WHERE column = value`, where the value is an int, a text or a marker.
    fn condition(&mut self, table: &Table) -> Result<Condition, Problem> {
        self.expect("WHERE")?;
        let column = table.column(self.name()?)?;
        self.expect("=")?;
        let value = match self.word()? {
            "?" => None,
            literal => Some(table.columns[column].parse(literal).ok_or_else(no_value)?),
        };
        Ok(Condition { column, value })
    }
}

fn is_of_name(c: char) -> bool {
    c.is_alphanumeric() || "_.-".contains(c)
}
