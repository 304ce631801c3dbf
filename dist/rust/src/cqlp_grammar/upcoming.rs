// Written by dist/erase from crates/cqlp_grammar/src/upcoming.rt.
//! What is still to be read of a message.

use crate::kit_std::prelude::{KitVec};
use crate::cqlp_grammar::grammar::Group;
use crate::cqlp_grammar::productions::{Expected, group_fields};

/// Fields that are still to be read.
#[derive(Clone, Copy)]
pub enum Slot {
    One(Expected),
    /// This many of a group.
    Many(Group, u32),
}

impl Slot {
    /// One group fewer, where there are several.
    #[inline(always)]
    fn count_down(&mut self) {
        if let Slot::Many(_, left) = self {
            if *left > 1 {
                *left -= 1;
            }
        }
    }
}

/// The fields that are still to be read, the next ones last. No message ever needs more room than there is.
pub struct Upcoming {
    slots: [Slot; 16],
    len: usize,
}

impl Upcoming {
    pub fn new() -> Self {
        Upcoming {
            slots: [Slot::Many(Group::Warnings, 1); 16],
            len: 0,
        }
    }

    pub(crate) fn clear(&mut self) {
        self.len = 0;
    }

    /// What is due next.
    #[inline(always)]
    pub fn due(&self) -> Option<&Expected> {
        if self.len == 0 {
            return None;
        }
        match &self.slots[self.len - 1] {
            Slot::One(due) => Some(due),
            Slot::Many(group, _) => Some(&group_fields(*group)[0]),
        }
    }

    /// Goes past what is due next.
    #[inline(always)]
    pub fn pass(&mut self) {
        if let Some(group) = self.open_group() {
            self.push_others(group);
        }
    }

    /// Takes off the field that is due next, or the group that it begins, and answers which group that is.
    #[inline(always)]
    fn open_group(&mut self) -> Option<Group> {
        if self.len == 0 {
            return None;
        }
        let last = self.len - 1;
        match self.slots[last] {
            Slot::Many(group, left) => {
                if left > 1 {
                    self.slots[last].count_down();
                } else {
                    self.len = last;
                }
                Some(group)
            }
            Slot::One(_) => {
                self.len = last;
                None
            }
        }
    }

    /// Puts this many groups before all else.
    pub(crate) fn push_many(&mut self, group: Group, count: u32) {
        if count > 0 {
            self.push_slot(Slot::Many(group, count));
        }
    }

    /// Puts a field before all else.
    pub(crate) fn kit_push(&mut self, due: Expected) {
        self.push_slot(Slot::One(due));
    }

    /// Puts a field before all else, where it is.
    pub(crate) fn push_if(&mut self, conforms: bool, due: Expected) {
        if conforms {
            self.kit_push(due);
        }
    }

    /// Puts these fields before all else.
    pub(crate) fn push_fields(&mut self, fields: &[Expected]) {
        let mut left = fields.len();
        while left > 0 {
            left -= 1;
            self.push_slot(Slot::One(fields[left]));
        }
    }

    /// Puts the fields of a group but the first before all else.
    fn push_others(&mut self, group: Group) {
        self.push_fields(&group_fields(group)[1..]);
    }

    fn push_slot(&mut self, slot: Slot) {
        self.slots[self.len] = slot;
        self.len += 1;
    }
}
