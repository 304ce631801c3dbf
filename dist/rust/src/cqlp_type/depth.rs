// Written by dist/erase from crates/cqlp_type/src/depth.rt.
//! How deep types are nested.

use crate::cqlp_kind::Node;

/// The greatest depth at which a type is, 0 where there are no nodes. It looks at each node once, and calls itself
/// as deep as types are nested.
pub(crate) fn deepest(nodes: &[Node]) -> u32 {
    let mut depth = 0;
    let mut rest = nodes;
    while let Some((first, after)) = rest.split_first() {
        let inner = inner_of(*first, after);
        depth = depth.max(1 + deepest(inner));
        rest = &after[inner.len()..];
    }
    depth
}

/// The nodes of a type's inner types, of those that are after its own node.
pub(crate) fn inner_of(first: Node, after: &[Node]) -> &[Node] {
    let span = first.span as usize;
    if span == 0 || span > after.len() {
        after
    } else {
        &after[..span - 1]
    }
}
