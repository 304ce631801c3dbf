// Written by dist/erase from crates/cqlp_encode/src/parts.rt.
//! The parts of frames, written.

use crate::cqlp_encode::staged::Staged;
use crate::cqlp_encode::types::put_tree;
use crate::cqlp_encode::values::put_value;
use crate::cqlp_message::{PartRef, TakesParts};
use crate::cqlp_note::Target;

impl<'a, W: Target> TakesParts for Staged<'a, W> {
    #[inline(always)]
    fn take(&mut self, part: PartRef<'_>) {
        self.put_part(part);
    }
}

impl<'a, W: Target> Staged<'a, W> {
    /// Takes a part.
    #[inline(always)]
    fn put_part(&mut self, part: PartRef<'_>) {
        match part {
            PartRef::Cell { value, .. } => put_value(self, value),
            _ => self.put_any_part(part),
        }
    }

    /// The same of a part that is mostly no cell.
    fn put_any_part(&mut self, part: PartRef<'_>) {
        match part {
            PartRef::Byte(_, value) => self.put_byte(value),
            PartRef::Short(_, value) => self.put_short(value),
            PartRef::Int(_, value) => self.put_int(value),
            PartRef::Long(_, value) => self.put_long(value),
            PartRef::Uuid(_, id) => self.put_uuid(*id),
            PartRef::Count16(_, count) => self.put_count16(count),
            PartRef::Count32(_, count) => self.put_count32(count),
            PartRef::Text(_, text) => self.put_text(text),
            PartRef::LongText(_, text) => self.put_content(text.as_bytes()),
            PartRef::ShortBytes(_, content) => self.put_short_content(content),
            PartRef::Bytes(_, bytes) => self.put_bytes(bytes),
            PartRef::Bound(_, value) => self.put_bound(value),
            PartRef::Inet(_, address, port) => self.put_inet(&address, port),
            PartRef::Type(tree) => put_tree(self, tree),
            PartRef::Cell { value, .. } => put_value(self, value),
        }
    }
}
