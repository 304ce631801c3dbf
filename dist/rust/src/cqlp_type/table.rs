// Written by dist/erase from crates/cqlp_type/src/table.rt.
//! Tables of types.

use crate::kit_std::prelude::{KitVec, Vec};
use crate::cqlp_type::depth::{deepest, inner_of};
use crate::cqlp_kind::Node;
use crate::cqlp_note::NoMemory;

/// Types in preorder: each is before its inner ones. The last of those that are side by side may be under way,
/// and then its nodes so far are there.
pub struct TypeTable {
    nodes: Vec<Node>,
    room: u32,
}

impl TypeTable {
    /// With room for `room` nodes, which is all that it will ever have.
    ///
    /// # Errors
    ///
    /// Memory that is refused.
    #[cfg_attr(not(feature = "cli"), inline)]
    pub fn new(room: u32) -> Result<Self, NoMemory> {
        Ok(TypeTable {
            nodes: Vec::kit_with_capacity(room as usize)?,
            room,
        })
    }

    /// How many nodes there are.
    #[cfg_attr(not(feature = "cli"), inline)]
    #[must_use]
    pub fn len(&self) -> u32 {
        self.nodes.len() as u32
    }

    /// Whether there are none.
    #[cfg_attr(not(feature = "cli"), inline)]
    #[must_use]
    pub fn is_empty(&self) -> bool {
        self.nodes.is_empty()
    }

    /// Whether no type is under way. Then the nodes are those of whole types side by side.
    #[cfg_attr(not(feature = "cli"), inline)]
    #[must_use]
    pub fn whole(&self) -> bool {
        self.nodes.iter().all(|node| node.span != 0)
    }

    /// How deep the types are nested; 0 where there are none. A type without inner types has depth 1, and another one
    /// more than its deepest inner type. Of a type that is under way the inner types that are so far count.
    #[cfg_attr(not(feature = "cli"), inline)]
    #[must_use]
    pub fn depth(&self) -> u32 {
        deepest(&self.nodes)
    }

    /// The node with this number; the first has the number 0.
    #[cfg_attr(not(feature = "cli"), inline)]
    #[must_use]
    pub fn node(&self, i: u32) -> Option<Node> {
        self.nodes.get(i as usize).copied()
    }

    /// How many types are side by side, one that is under way counted.
    #[cfg_attr(not(feature = "cli"), inline)]
    #[must_use]
    pub fn roots(&self) -> u32 {
        count_beginnings(&self.nodes)
    }

    /// The number of the node at which the type with number `i` begins, of those that are side by side.
    #[cfg_attr(not(feature = "cli"), inline)]
    #[must_use]
    pub fn root(&self, i: u32) -> Option<u32> {
        beginning(&self.nodes, 0, i)
    }

    /// The number of the node at which inner type `i` of a node's type begins, where it is in the table.
    #[cfg_attr(not(feature = "cli"), inline)]
    #[must_use]
    pub fn child(&self, node: u32, i: u32) -> Option<u32> {
        let first = self.node(node)?;
        let after = &self.nodes[node as usize + 1..];
        beginning(inner_of(first, after), node + 1, i)
    }

    /// Removes all nodes, and keeps the room.
    #[cfg_attr(not(feature = "cli"), inline)]
    pub fn clear(&mut self) {
        self.nodes.clear();
    }

    /// How many nodes there can be.
    #[cfg_attr(not(feature = "cli"), inline)]
    #[must_use]
    pub fn room(&self) -> u32 {
        self.room
    }

    /// How many nodes its memory has places for: the room, for as long as it lives.
    #[cfg_attr(not(feature = "cli"), inline)]
    #[must_use]
    pub fn capacity(&self) -> usize {
        self.nodes.capacity()
    }

    /// Adds the node of a type that is under way.
    #[cfg_attr(not(feature = "cli"), inline)]
    pub(crate) fn kit_push(&mut self, node: Node) {
        self.nodes.push_reserved(node);
    }

    /// Sets how many inner types the last type has.
    #[cfg_attr(not(feature = "cli"), inline)]
    pub(crate) fn set_arity(&mut self, arity: u16) {
        if !self.nodes.is_empty() {
            let last = self.nodes.len() - 1;
            self.nodes[last].arity = arity;
        }
    }

    /// The type that begins at this node ends with the last one.
    #[cfg_attr(not(feature = "cli"), inline)]
    pub(crate) fn close(&mut self, i: u32) {
        let first = i as usize;
        if first < self.nodes.len() {
            self.nodes[first].span = (self.nodes.len() - first) as u32;
        }
    }
}

impl TypeTable {
    /// An equal table with the same room.
    ///
    /// # Errors
    ///
    /// Memory that is refused; this table stays as it is.
    #[cfg_attr(not(feature = "cli"), inline)]
    pub fn clone_table(&self) -> Result<Self, NoMemory> {
        let mut nodes = Vec::kit_with_capacity(self.room as usize)?;
        append(&mut nodes, &self.nodes);
        Ok(TypeTable {
            nodes,
            room: self.room,
        })
    }
}

/// Adds these nodes, for which there are places.
#[cfg_attr(not(feature = "cli"), inline)]
fn append(nodes: &mut Vec<Node>, added: &[Node]) {
    for node in added {
        nodes.push_reserved(*node);
    }
}

/// How many types are side by side.
fn count_beginnings(nodes: &[Node]) -> u32 {
    let mut count = 0;
    let mut at = 0;
    while at < nodes.len() {
        count += 1;
        let span = nodes[at].span as usize;
        if span == 0 {
            return count;
        }
        at += span;
    }
    count
}

/// Where type `i` of those that are side by side begins, if the first node has the number `first`.
fn beginning(nodes: &[Node], first: u32, i: u32) -> Option<u32> {
    let mut at = 0;
    for _ in 0..i {
        let span = nodes.get(at)?.span as usize;
        if span == 0 {
            return None;
        }
        at += span;
    }
    if at < nodes.len() {
        Some(first + at as u32)
    } else {
        None
    }
}
