// Written by dist/erase from crates/cqlp_statement_types/src/selection.rt.
//! What a statement selects.

use crate::kit_host::prelude::{Vec};
use crate::cqlp_statement_types::column::Column;
use crate::cqlp_statement_types::name::{is_same, is_sign, is_word, name_of};
use crate::cqlp_statement_types::schema::Schema;
use crate::cqlp_statement_types::shape::{is_one_cell, kind_of};
use crate::cqlp_statement_types::split::{depth_behind, part, split};
use crate::cqlp_statement_types::token::{Token, tokens_of};
use crate::cqlp_statement_types::tree::Trees;
use crate::cqlp_type::{Kind, TypeTree};
use crate::kit_std::alloc::{AllocError};

/// Whether a statement is a SELECT.
pub(crate) fn is_select(statement: &[u8]) -> Result<bool, AllocError> {
    match tokens_of(statement)? {
        Some(tokens) => Ok(selected(tokens.as_slice()).is_some()),
        None => Ok(false),
    }
}

/// The types of the columns of a statement's pages, that was prepared in this keyspace, or in none. `None` where they are not known.
pub(crate) fn types_selected(
    schema: &Schema,
    keyspace: &[u8],
    statement: &[u8],
) -> Result<Option<Vec<TypeTree>>, AllocError> {
    let Some(tokens) = tokens_of(statement)? else {
        return Ok(None);
    };
    let Some(selected) = selected(tokens.as_slice()) else {
        return Ok(None);
    };
    let Some(parts) = parts_of(selected) else {
        return Ok(None);
    };
    let Some(table) = table_in(parts.table) else {
        return Ok(None);
    };
    let Some(name) = name_of(table.name)? else {
        return Ok(None);
    };
    match table.keyspace {
        Some(own) => match name_of(own)? {
            Some(own) => types_of(schema, own.as_slice(), name.as_slice(), parts.items),
            None => Ok(None),
        },
        None => types_of(schema, keyspace, name.as_slice(), parts.items),
    }
}

fn types_of(
    schema: &Schema,
    keyspace: &[u8],
    table: &[u8],
    items: &[Token<'_>],
) -> Result<Option<Vec<TypeTree>>, AllocError> {
    let Some(columns) = schema.columns_of(keyspace, table)? else {
        return Ok(None);
    };
    let mut trees = Trees::new(schema, keyspace);
    if is_option(items, b"json") {
        trees.add_plain(Kind::Varchar)?;
        return Ok(trees.finish());
    }
    let Some(items) = split(without_distinct(items))? else {
        return Ok(None);
    };
    for item in items.as_slice() {
        add_item(columns, *item, &mut trees)?;
    }
    Ok(trees.finish())
}

/// What follows SELECT.
fn selected<'t, 'a>(tokens: &'t [Token<'a>]) -> Option<&'t [Token<'a>]> {
    match tokens {
        [first, others @ ..] if is_word(*first, b"select") => Some(others),
        _ => None,
    }
}

/// What is before FROM, and what is behind it.
#[derive(Clone, Copy)]
struct Parts<'t, 'a> {
    items: &'t [Token<'a>],
    table: &'t [Token<'a>],
}

fn parts_of<'t, 'a>(tokens: &'t [Token<'a>]) -> Option<Parts<'t, 'a>> {
    let mut depth = 0;
    for (at, token) in tokens.iter().enumerate() {
        if depth == 0 && is_word(*token, b"from") {
            return Some(Parts {
                items: part(tokens, 0, at),
                table: part(tokens, at.saturating_add(1), tokens.len()),
            });
        }
        depth = depth_behind(depth, *token)?;
    }
    None
}

/// The tokens that name a table.
#[derive(Clone, Copy)]
struct Table<'a> {
    keyspace: Option<Token<'a>>,
    name: Token<'a>,
}

/// The table at the beginning of what follows FROM.
fn table_in<'a>(tokens: &[Token<'a>]) -> Option<Table<'a>> {
    match tokens {
        [keyspace, dot, name, others @ ..] if is_sign(*dot, b'.') => {
            if begins_with_dot(others) {
                return None;
            }
            Some(Table {
                keyspace: Some(*keyspace),
                name: *name,
            })
        }
        [name, others @ ..] if !begins_with_dot(others) => Some(Table {
            keyspace: None,
            name: *name,
        }),
        _ => None,
    }
}

fn begins_with_dot(tokens: &[Token<'_>]) -> bool {
    match tokens {
        [first, ..] => is_sign(*first, b'.'),
        [] => false,
    }
}

/// Whether items begin with this word, which is no column there.
fn is_option(items: &[Token<'_>], word: &[u8]) -> bool {
    match items {
        [first, next, ..] => is_word(*first, word) && begins_item(*next),
        _ => false,
    }
}

/// Whether an item may begin with a token.
fn begins_item(token: Token<'_>) -> bool {
    match token {
        Token::Word(word) => !is_same(word, b"as"),
        Token::Quoted(_) | Token::Sign(b'*') => true,
        Token::Text | Token::Sign(_) => false,
    }
}

fn without_distinct<'t, 'a>(items: &'t [Token<'a>]) -> &'t [Token<'a>] {
    if is_option(items, b"distinct") {
        part(items, 1, items.len())
    } else {
        items
    }
}

/// What an item has before AS.
fn without_alias<'t, 'a>(item: &'t [Token<'a>]) -> &'t [Token<'a>] {
    match item {
        [first, .., word, _alias] if is_word(*word, b"as") => {
            let _ = first;
            part(item, 0, item.len().saturating_sub(2))
        }
        _ => item,
    }
}

/// Adds the types of an item.
fn add_item(
    columns: &[Column],
    item: &[Token<'_>],
    trees: &mut Trees<'_>,
) -> Result<(), AllocError> {
    match without_alias(item) {
        [Token::Sign(b'*')] => {
            for column in columns {
                trees.add(column.type_text.as_slice())?;
            }
            Ok(())
        }
        [name] => match column_named(columns, *name)? {
            Some(column) => trees.add(column.type_text.as_slice()),
            None => trees.add_unknown(),
        },
        [
            Token::Word(function),
            Token::Sign(b'('),
            arguments @ ..,
            Token::Sign(b')'),
        ] => match kind_called(columns, *function, arguments)? {
            Some(kind) => trees.add_plain(kind),
            None => trees.add_unknown(),
        },
        _ => trees.add_unknown(),
    }
}

/// The column that a token names.
fn column_named<'c>(
    columns: &'c [Column],
    token: Token<'_>,
) -> Result<Option<&'c Column>, AllocError> {
    let Some(name) = name_of(token)? else {
        return Ok(None);
    };
    for column in columns {
        if column.name == name {
            return Ok(Some(column));
        }
    }
    Ok(None)
}

/// The type of what a function answers, if that is known.
fn kind_called(
    columns: &[Column],
    function: &[u8],
    arguments: &[Token<'_>],
) -> Result<Option<Kind>, AllocError> {
    let Some(items) = split(arguments)? else {
        return Ok(None);
    };
    let [item] = items.as_slice() else {
        return Ok(None);
    };
    if is_same(function, b"count") {
        return Ok(Some(Kind::Bigint));
    }
    if is_same(function, b"tojson") || is_same(function, b"to_json") {
        return Ok(Some(Kind::Varchar));
    }
    if is_same(function, b"cast") {
        return Ok(kind_cast(*item));
    }
    if !is_of_one_cell(columns, *item)? {
        return Ok(None);
    }
    if is_same(function, b"writetime") {
        return Ok(Some(Kind::Bigint));
    }
    if is_same(function, b"ttl") {
        return Ok(Some(Kind::Int));
    }
    Ok(None)
}

/// The type that follows AS.
fn kind_cast(argument: &[Token<'_>]) -> Option<Kind> {
    match argument {
        [.., word, Token::Word(name)] if is_word(*word, b"as") => kind_of(*name),
        _ => None,
    }
}

/// Whether an argument is a column whose values are one cell each: others have more than one time.
fn is_of_one_cell(
    columns: &[Column],
    argument: &[Token<'_>],
) -> Result<bool, AllocError> {
    let [name] = argument else {
        return Ok(false);
    };
    let Some(column) = column_named(columns, *name)? else {
        return Ok(false);
    };
    match tokens_of(column.type_text.as_slice())? {
        Some(tokens) => Ok(is_one_cell(tokens.as_slice())),
        None => Ok(false),
    }
}
