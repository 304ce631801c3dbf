//! Values that are bound to a statement.

use alloc::string::String;
use alloc::vec::Vec;
use core::error::Error;
use core::fmt;

use crate::cqlp_encode::BindError;
use crate::cqlp_kind::Kind;
use crate::cqlp_message::{OwnedBound, Spec};
use crate::cqlp_text::kind_name;
use crate::rows::error::type_of;
use crate::rows::to_cell::ToCell;

/// Why a Rust value is none of a type.
#[derive(Clone, Copy, Debug, PartialEq, Eq)]
#[non_exhaustive]
pub enum Unbound {
    /// The Rust type writes no values of the type, or of the type of an item.
    Type {
        /// The Rust type.
        given: &'static str,
        /// The type of the column or of the item.
        wanted: Kind,
    },
    /// The value is out of the range of the type, or too long, or memory was refused.
    Value(BindError),
}

impl fmt::Display for Unbound {
    fn fmt(&self, f: &mut fmt::Formatter<'_>) -> fmt::Result {
        match self {
            Unbound::Type { given, wanted } => {
                write!(f, "{} is wanted, which {} writes, and {given} is given", kind_name(*wanted), type_of(*wanted))
            }
            Unbound::Value(why) => why.fmt(f),
        }
    }
}

impl Error for Unbound {
    fn source(&self) -> Option<&(dyn Error + 'static)> {
        match self {
            Unbound::Type { .. } => None,
            Unbound::Value(why) => Some(why),
        }
    }
}

/// Why the values of a statement are not bound.
#[derive(Clone, Debug, PartialEq, Eq)]
#[non_exhaustive]
pub enum BindFault {
    /// The statement binds another number of values.
    Count {
        /// How many values the statement binds.
        wanted: usize,
        /// How many values are given.
        given: usize,
    },
    /// A value is none of its column's type.
    Value {
        /// The place of the value, from 0.
        place: usize,
        /// The name of the column or of the marker.
        name: String,
        /// Why not.
        why: Unbound,
    },
}

impl fmt::Display for BindFault {
    fn fmt(&self, f: &mut fmt::Formatter<'_>) -> fmt::Result {
        match self {
            BindFault::Count { wanted, given } => write!(f, "the statement binds {wanted} values, and {given} are given"),
            BindFault::Value { place, name, why } => write!(f, "value {place} {name:?}: {why}"),
        }
    }
}

impl Error for BindFault {
    fn source(&self) -> Option<&(dyn Error + 'static)> {
        match self {
            BindFault::Count { .. } => None,
            BindFault::Value { why, .. } => Some(why),
        }
    }
}

/// Values as [`QueryParams::values`](crate::frame::QueryParams::values) has them, without names.
pub type BoundValues = Vec<(Option<String>, OwnedBound)>;

/// Binds values to a statement, whose [`specs`](crate::frame::Prepared::specs) say the types of its values. Sections 4.1.4 and 4.2.5.4 of
/// `native_protocol_v4.spec`. [`bind!`](crate::bind) calls it.
///
/// # Errors
///
/// [`BindFault::Count`] where the values are not as many as the specs, else [`BindFault::Value`] at the first that is none of its type.
pub fn bind_values(specs: &[Spec], values: &[&dyn ToCell]) -> Result<BoundValues, BindFault> {
    if specs.len() != values.len() {
        return Err(BindFault::Count { wanted: specs.len(), given: values.len() });
    }
    let bind = |(place, (spec, value)): (usize, (&Spec, &&dyn ToCell))| match value.to_bound(&spec.tree) {
        Ok(bound) => Ok((None, bound)),
        Err(why) => Err(BindFault::Value { place, name: spec.name.as_str().into(), why }),
    };
    Ok(specs.iter().zip(values).enumerate().map(bind).collect::<Result<Vec<_>, _>>()?)
}

/// The values of a statement, bound by their places: `bind!(specs; 7, "spade", None::<i32>)` is what
/// [`bind_values`](crate::rows::bind_values) makes of them.
#[macro_export]
macro_rules! bind {
    ($specs:expr; $($value:expr),* $(,)?) => {
        $crate::rows::bind_values($specs, &[$(&$value as &dyn $crate::rows::ToCell),*])
    };
}
