//! Rust's collections, read from lists, sets, maps, tuples and user-defined values.

use alloc::collections::{BTreeMap, BTreeSet};
use alloc::vec::Vec;
#[cfg(feature = "std")]
use core::hash::{BuildHasher, Hash};
#[cfg(feature = "std")]
use std::collections::{HashMap, HashSet};

use crate::cqlp_kind::Kind;
use crate::rows::cell::LentCell;
use crate::rows::error::Mismatch;
use crate::rows::from_cell::FromCell;
use crate::rows::items::LentItems;

/// The items of a list or a set; None where the value has no bytes.
#[inline]
fn items_of<'a, 's>(cell: LentCell<'a, 's>, wanted: &'static str) -> Result<Option<LentItems<'a, 's>>, Mismatch> {
    match cell {
        LentCell::Items(items) if matches!(items.kind(), Kind::List | Kind::Set) => Ok(Some(items)),
        LentCell::Empty => Ok(None),
        other => Err(other.unlike(wanted)),
    }
}

/// The items of a map; None where the value has no bytes.
#[inline]
fn pairs_of<'a, 's>(cell: LentCell<'a, 's>, wanted: &'static str) -> Result<Option<LentItems<'a, 's>>, Mismatch> {
    match cell {
        LentCell::Items(items) if items.kind() == Kind::Map => Ok(Some(items)),
        LentCell::Empty => Ok(None),
        other => Err(other.unlike(wanted)),
    }
}

/// The items of a list or a set, in their order.
impl<'a, T: FromCell<'a>> FromCell<'a> for Vec<T> {
    #[inline]
    fn from_cell(cell: LentCell<'a, '_>) -> Result<Self, Mismatch> {
        let mut values = Vec::new();
        let Some(items) = items_of(cell, "Vec<_>")? else {
            return Ok(values);
        };
        values.try_reserve_exact(items.room()).map_err(|_| Mismatch::NoMemory)?;
        items.read_each(|value| values.push(value))?;
        Ok(values)
    }
}

/// The items of a list or a set, each once.
impl<'a, T: FromCell<'a> + Ord> FromCell<'a> for BTreeSet<T> {
    fn from_cell(cell: LentCell<'a, '_>) -> Result<Self, Mismatch> {
        let mut set = BTreeSet::new();
        if let Some(items) = items_of(cell, "BTreeSet<_>")? {
            items.read_each(|value| _ = set.insert(value))?;
        }
        Ok(set)
    }
}

/// The pairs of a map. Where a key comes again, the last value counts.
impl<'a, K: FromCell<'a> + Ord, V: FromCell<'a>> FromCell<'a> for BTreeMap<K, V> {
    fn from_cell(cell: LentCell<'a, '_>) -> Result<Self, Mismatch> {
        let mut map = BTreeMap::new();
        if let Some(items) = pairs_of(cell, "BTreeMap<_, _>")? {
            items.read_pairs(|key, value| _ = map.insert(key, value))?;
        }
        Ok(map)
    }
}

/// The items of a list or a set, each once.
#[cfg(feature = "std")]
impl<'a, T: FromCell<'a> + Eq + Hash, S: BuildHasher + Default> FromCell<'a> for HashSet<T, S> {
    fn from_cell(cell: LentCell<'a, '_>) -> Result<Self, Mismatch> {
        let mut set = HashSet::with_hasher(S::default());
        let Some(items) = items_of(cell, "HashSet<_>")? else {
            return Ok(set);
        };
        set.try_reserve(items.room()).map_err(|_| Mismatch::NoMemory)?;
        items.read_each(|value| _ = set.insert(value))?;
        Ok(set)
    }
}

/// The pairs of a map. Where a key comes again, the last value counts.
#[cfg(feature = "std")]
impl<'a, K: FromCell<'a> + Eq + Hash, V: FromCell<'a>, S: BuildHasher + Default> FromCell<'a> for HashMap<K, V, S> {
    fn from_cell(cell: LentCell<'a, '_>) -> Result<Self, Mismatch> {
        let mut map = HashMap::with_hasher(S::default());
        let Some(items) = pairs_of(cell, "HashMap<_, _>")? else {
            return Ok(map);
        };
        map.try_reserve(items.room()).map_err(|_| Mismatch::NoMemory)?;
        items.read_pairs(|key, value| _ = map.insert(key, value))?;
        Ok(map)
    }
}

/// Implements `FromCell` for tuples of these types.
macro_rules! tuples {
    ($($type:ident)+; $count:literal) => {
        /// The fields of a tuple or a user-defined value by their places. Fields that the value leaves out at its end are read as null.
        impl<'a, $($type: FromCell<'a>),+> FromCell<'a> for ($($type,)+) {
            fn from_cell(cell: LentCell<'a, '_>) -> Result<Self, Mismatch> {
                match cell {
                    LentCell::Items(mut items) if matches!(items.kind(), Kind::Tuple | Kind::Udt) => {
                        let fields = ($($type::from_cell(items.next().unwrap_or(LentCell::Null))?,)+);
                        match items.count() {
                            0 => Ok(fields),
                            more => Err(Mismatch::Fields { wanted: $count, came: $count + more }),
                        }
                    }
                    other => Err(other.unlike("a tuple")),
                }
            }
        }
    };
}

tuples! { A; 1 }
tuples! { A B; 2 }
tuples! { A B C; 3 }
tuples! { A B C D; 4 }
tuples! { A B C D E; 5 }
tuples! { A B C D E F; 6 }
tuples! { A B C D E F G; 7 }
tuples! { A B C D E F G H; 8 }
tuples! { A B C D E F G H I; 9 }
tuples! { A B C D E F G H I J; 10 }
tuples! { A B C D E F G H I J K; 11 }
tuples! { A B C D E F G H I J K L; 12 }
