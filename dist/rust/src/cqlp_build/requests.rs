// Written by dist/erase from crates/cqlp_build/src/requests.rt.
//! Parts of requests.

use crate::kit_std::prelude::{String, Vec};
use crate::cqlp_build::held::{FrameEvents, has_flag};
use crate::cqlp_build::lists::Wanted;
use crate::cqlp_message::{OwnedBound, QueryParams};
use crate::cqlp_note::Field;

impl FrameEvents {
    /// Takes the name of a value, if it is to have one.
    pub fn name_if(&mut self, there: bool) -> Option<String> {
        if there {
            Some(self.text(Field::ValueName))
        } else {
            None
        }
    }

    /// Takes the values of a query, if they are to be there, with names or without.
    fn values_if(&mut self, there: bool, named: bool) -> Option<Vec<(Option<String>, OwnedBound)>> {
        if there {
            let wanted = Wanted {
                field: Field::Value,
                named,
            };
            Some(self.counted(Field::Values, wanted))
        } else {
            None
        }
    }

    /// Takes the rows of a page, if they are to be there.
    fn page_size_if(&mut self, there: bool) -> Option<i32> {
        if there {
            Some(self.int(Field::PageSize))
        } else {
            None
        }
    }

    /// Takes a paging state, if it is to be there.
    pub fn paging_if(&mut self, there: bool) -> Option<Option<Vec<u8>>> {
        if there {
            Some(self.bytes(Field::PagingState))
        } else {
            None
        }
    }

    /// Takes a serial consistency, if it is to be there.
    pub fn serial_if(&mut self, there: bool) -> Option<u16> {
        if there {
            Some(self.short(Field::SerialConsistency))
        } else {
            None
        }
    }

    /// Takes a default timestamp, if it is to be there.
    pub fn timestamp_if(&mut self, there: bool) -> Option<i64> {
        if there {
            Some(self.long(Field::Timestamp))
        } else {
            None
        }
    }

    /// Takes the parameters of a query.
    pub fn params(&mut self) -> QueryParams {
        let consistency = self.short(Field::Consistency);
        let flags = self.byte(Field::QueryFlags);
        let values = self.values_if(has_flag(flags, 0x01), has_flag(flags, 0x40));
        let page_size = self.page_size_if(has_flag(flags, 0x04));
        let paging = self.paging_if(has_flag(flags, 0x08));
        let serial = self.serial_if(has_flag(flags, 0x10));
        let timestamp = self.timestamp_if(has_flag(flags, 0x20));
        QueryParams {
            consistency,
            flags,
            values,
            page_size,
            paging,
            serial,
            timestamp,
        }
    }

    /// Takes the values of a statement of a batch.
    pub fn batch_values(&mut self) -> Vec<OwnedBound> {
        self.counted(Field::Values, Wanted::PLAIN)
    }
}
