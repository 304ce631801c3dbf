// Written by dist/erase from crates/cqlp_build/src/metadata.rt.
//! Metadata, and prepared statements.

use crate::kit_std::prelude::{KitNumber, String, Vec};
use crate::cqlp_build::held::FrameEvents;
use crate::cqlp_build::lists::{FromEvents, Wanted};
use crate::cqlp_grammar::has;
use crate::cqlp_message::{Metadata, Prepared, Spec};
use crate::cqlp_note::Field;

/// The table of all columns, and the columns.
type Columns = (Option<(String, String)>, Vec<Spec>);

/// The same, if columns are described.
type ColumnsIf = (Option<(String, String)>, Option<Vec<Spec>>);

impl FromEvents for u16 {
    fn build(held: &mut FrameEvents, wanted: Wanted) -> Self {
        held.short(wanted.field)
    }
}

impl FromEvents for Spec {
    fn build(held: &mut FrameEvents, wanted: Wanted) -> Self {
        let table = held.table_if(wanted.named);
        let name = held.text(Field::ColumnName);
        let tree = held.tree();
        Spec { table, name, tree }
    }
}

impl FrameEvents {
    /// Takes a keyspace and a table, if they are to be there.
    fn table_if(&mut self, there: bool) -> Option<(String, String)> {
        if there {
            let keyspace = self.text(Field::Keyspace);
            let table = self.text(Field::Table);
            Some((keyspace, table))
        } else {
            None
        }
    }

    /// Takes this many columns, after their table where the flags say that it is that of all.
    fn columns(&mut self, flags: u32, count: u32) -> Columns {
        let global = has(flags, 0x01);
        let table = self.table_if(global);
        let wanted = Wanted {
            field: Field::ColumnName,
            named: !global,
        };
        let specs = self.many(count, wanted);
        (table, specs)
    }

    /// Takes this many columns, if the flags say that they are described.
    fn columns_if(&mut self, flags: u32, count: u32) -> ColumnsIf {
        if has(flags, 0x04) {
            return (None, None);
        }
        let (table, specs) = self.columns(flags, count);
        (table, Some(specs))
    }

    /// Takes the description of a page's columns.
    pub fn metadata(&mut self) -> Metadata {
        let flags = self.int(Field::MetaFlags);
        let columns = self.count(Field::Columns);
        let bits = flags.kit_other_sign();
        let paging = self.paging_if(has(bits, 0x02));
        let (table, specs) = self.columns_if(bits, columns);
        Metadata {
            flags,
            columns,
            paging,
            table,
            specs,
        }
    }

    /// Takes the number of the values of a partition key, and each.
    fn keys(&mut self) -> Vec<u16> {
        let wanted = Wanted {
            field: Field::KeyIndex,
            named: false,
        };
        self.counted(Field::Keys, wanted)
    }

    /// Takes a prepared statement.
    pub fn prepared(&mut self) -> Prepared {
        let id = self.statement();
        let flags = self.int(Field::MetaFlags);
        let columns = self.count(Field::Columns);
        let keys = self.keys();
        let (table, specs) = self.columns(flags.kit_other_sign(), columns);
        let result = self.metadata();
        Prepared {
            id,
            flags,
            columns,
            keys,
            table,
            specs,
            result,
        }
    }
}
