// Written by dist/erase from crates/cqlp_decode/src/metadata.rt.
//! Where metadata begins.

use crate::cqlp_grammar::Role;
use crate::cqlp_type::TypeTable;

/// Metadata begins without types.
#[cfg_attr(not(feature = "cli"), inline)]
pub fn begin_metadata(role: Role, table: &mut TypeTable) {
    if matches!(role, Role::MetaFlags { .. } | Role::PreparedFlags) {
        table.clear();
    }
}
