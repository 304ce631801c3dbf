//! The table `ks.t`.

use super::table::{Table, Type, text};
use cqlp::Kind;
use cqlp::frame::Value;
use cqlp::memory::AllocError;

/// The keys `k` are 0 to 99.
pub const KEYS: i32 = 100;

/// How many rows each key has; in them `c` is 0 to 24.
pub const ROWS_OF_KEY: i32 = 25;

/// The table, in the order of its keys.
pub fn table() -> Result<Table, AllocError> {
    let mut table = Table::new("ks", "t", &[("k", Type::INT), ("c", Type::INT), ("t", Type::TEXT), ("l", Type::List(Kind::Int))])?;
    for key in 0..KEYS {
        table.rows.extend((0..ROWS_OF_KEY).map(|number| row(key, number)));
    }
    Ok(table)
}

fn row(key: i32, number: i32) -> Vec<Value> {
    vec![key.into(), number.into(), text(&format!("row {number} of {key}")), neighbours(number)]
}

/// The number before this one and the one after it, and null where the number is a multiple of 3.
fn neighbours(number: i32) -> Value {
    if number % 3 == 0 { Value::Null } else { Value::List(vec![(number - 1).into(), (number + 1).into()]) }
}
