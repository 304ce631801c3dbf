// Written by dist/erase from crates/cqlp_type_tables/src/found.rt.
//! What is found of types before they are written.

use crate::cqlp_type_tables::count::count_nodes;
use crate::cqlp_type_tables::typed::HasType;
use crate::cqlp_type::{TreeCheck, check_type, type_size};

/// What is found of types side by side.
#[derive(Clone, Copy)]
pub(crate) struct Found {
    /// What keeps one of them from having an option.
    pub check: TreeCheck,
    /// How many bytes their options have; 2^64 - 1 where there are more.
    pub size: u64,
    /// How many nodes they have, those of their inner types counted; 2^64 - 1 where there are more.
    pub nodes: u64,
}

impl Found {
    /// Whether each of the types has an option.
    pub fn is_writable(&self) -> bool {
        self.check.formed && self.check.counts && self.check.texts
    }
}

/// What is found of the types of these, in order.
pub(crate) fn find<T: HasType>(items: &[T]) -> Found {
    let mut check = TreeCheck {
        formed: true,
        counts: true,
        texts: true,
    };
    let mut size: u64 = 0;
    let mut nodes: u64 = 0;
    for item in items {
        let tree = item.tree();
        check = both(check, check_type(tree));
        size = size.saturating_add(type_size(tree));
        nodes = nodes.saturating_add(count_nodes(tree));
    }
    Found { check, size, nodes }
}

/// What keeps some types or others from having options.
fn both(one: TreeCheck, other: TreeCheck) -> TreeCheck {
    TreeCheck {
        formed: one.formed && other.formed,
        counts: one.counts && other.counts,
        texts: one.texts && other.texts,
    }
}
