// Written by dist/erase from crates/cqlp_type/src/reader.rt.
//! A type option out of pieces of any size.

use crate::cqlp_type::advance::TypeAdvance;
use crate::cqlp_type::item::TypePush;
use crate::cqlp_type::open_options::OpenOptions;
use crate::cqlp_type::remaining::{OptionStage, Remaining};
use crate::cqlp_type::table::TypeTable;
use crate::cqlp_note::{Asked, FieldAdvance, Limits, NoMemory, Notation, Partial, Refusal};

/// Reads type options, one at a time. Its texts are read in the caller's `Partial`, and its types go into the caller's
/// table.
pub struct TypeReader {
    limits: Asked,
    /// The offset of the item that is read now.
    at: u64,
    /// The end of the frame.
    end: u64,
    /// Whether the item has been begun.
    begun: bool,
    /// How many of its bytes have come.
    taken: u64,
    remaining: Remaining,
}

impl TypeReader {
    /// With room for the nesting that the limits allow.
    #[cfg_attr(not(feature = "cli"), inline)]
    pub fn new(limits: &Limits) -> Result<Self, NoMemory> {
        Self::asked(&Asked::new(limits, false))
    }

    /// The same, where the caller may ask for a lenient reading.
    #[cfg_attr(not(feature = "cli"), inline)]
    pub fn asked(limits: &Asked) -> Result<Self, NoMemory> {
        Ok(TypeReader {
            limits: *limits,
            at: 0,
            end: 0,
            begun: false,
            taken: 0,
            remaining: Remaining {
                stage: OptionStage::Idle,
                open_options: OpenOptions::new(limits.depth)?,
            },
        })
    }

    /// Begins an option at an offset, in a frame that ends at another. It may be read into any table of whole types.
    #[cfg_attr(not(feature = "cli"), inline)]
    pub(crate) fn begin(&mut self, at: u64, end: u64) {
        self.at = at;
        self.end = end;
        self.begun = false;
        self.taken = 0;
        self.remaining.open_options.clear();
        self.remaining.stage = OptionStage::Id;
    }

    /// Whether an option is under way and whole, so that the next push says so.
    #[cfg_attr(not(feature = "cli"), inline)]
    #[must_use]
    pub fn done(&self) -> bool {
        matches!(self.remaining.stage, OptionStage::Done)
    }

    /// How many options are open around the one that is read.
    #[cfg_attr(not(feature = "cli"), inline)]
    #[must_use]
    pub fn held(&self) -> u32 {
        self.remaining.open_options.len()
    }

    /// How many open options its memory has places for: as many as the limits allow, for as long as it lives.
    #[cfg_attr(not(feature = "cli"), inline)]
    #[must_use]
    pub fn capacity(&self) -> usize {
        self.remaining.open_options.capacity()
    }

    /// The offset of the first byte of what is read now.
    #[cfg_attr(not(feature = "cli"), inline)]
    #[must_use]
    pub fn offset(&self) -> u64 {
        self.at
    }

    /// Takes the next bytes of the option that is under way, whose nodes are in the table.
    #[cfg_attr(not(feature = "cli"), inline)]
    pub(crate) fn advance(
        &mut self,
        partial: &mut Partial,
        table: &mut TypeTable,
        input: &[u8],
    ) -> TypeAdvance {
        if let OptionStage::Done = self.remaining.stage {
            self.stop();
            return TypeAdvance::Done;
        }
        self.begin_item(partial);
        match partial.advance(input) {
            FieldAdvance::More { used } => {
                self.taken += used as u64;
                TypeAdvance::More { used }
            }
            FieldAdvance::Refused(refusal) => {
                self.stop();
                TypeAdvance::Refused(refusal)
            }
            FieldAdvance::Got { used, item } => {
                let at = self.at;
                match self.remaining.follow(&self.limits, item, table) {
                    Ok(item) => {
                        self.at += self.taken + used as u64;
                        self.begun = false;
                        self.taken = 0;
                        TypeAdvance::Item { at, used, item }
                    }
                    Err(why) => {
                        self.stop();
                        TypeAdvance::Refused(Refusal { at, why })
                    }
                }
            }
        }
    }

    /// Takes the next bytes of the option that is under way. A text that lies whole in them is lent from them.
    ///
    /// The `Partial` comes first: what is lent may be its own, and a clause says what the first parameter is once that
    /// loan has ended.
    #[cfg_attr(not(feature = "cli"), inline)]
    pub(crate) fn push<'a>(
        partial: &'a mut Partial,
        reader: &mut Self,
        table: &mut TypeTable,
        input: &'a [u8],
    ) -> TypePush<'a> {
        match reader.advance(partial, table, input) {
            TypeAdvance::More { used } => TypePush::More { used },
            TypeAdvance::Item { at, used, item } => TypePush::Item {
                at,
                used,
                item: item.lend(partial, input),
            },
            TypeAdvance::Done => TypePush::Done,
            TypeAdvance::Refused(refusal) => TypePush::Refused(refusal),
        }
    }

    /// Begins the item, unless it has begun.
    #[cfg_attr(not(feature = "cli"), inline)]
    fn begin_item(&mut self, partial: &mut Partial) {
        if self.begun {
            return;
        }
        let (notation, limit) = match self.remaining.stage {
            OptionStage::Id | OptionStage::Fields { .. } => (Notation::Short, 0),
            _ => (Notation::Text16, self.limits.text),
        };
        partial.begin(notation, limit, self.at, self.end);
        self.begun = true;
        self.taken = 0;
    }

    /// Ends the option, whole or not.
    #[cfg_attr(not(feature = "cli"), inline)]
    pub fn stop(&mut self) {
        self.begun = false;
        self.taken = 0;
        self.remaining.open_options.clear();
        self.remaining.stage = OptionStage::Idle;
    }
}
