// Written by dist/erase from crates/cqlp_type_tables/src/typed.rt.
//! What has a type.

use crate::cqlp_message::Spec;
use crate::cqlp_type::TypeTree;

/// What has a type.
pub(crate) trait HasType {
    fn tree(&self) -> &TypeTree;
}

impl HasType for TypeTree {
    fn tree(&self) -> &TypeTree {
        self
    }
}

impl HasType for Spec {
    fn tree(&self) -> &TypeTree {
        &self.tree
    }
}
