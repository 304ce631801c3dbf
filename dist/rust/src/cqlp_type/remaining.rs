// Written by dist/erase from crates/cqlp_type/src/remaining.rt.
//! What is still to be read of a type option.

use crate::kit_std::prelude::{KitVec};
use crate::cqlp_type::advance::TypeOutline;
use crate::cqlp_type::open_options::{NextOption, OpenOptions};
use crate::cqlp_type::table::TypeTable;
use crate::cqlp_kind::{Kind, Node};
use crate::cqlp_note::{Asked, Field, FieldOutline, Prim, Reason};

/// What of an option is read now.
#[derive(Clone, Copy)]
pub(crate) enum OptionStage {
    /// No option is under way.
    Idle,
    /// Nothing: the option is whole, which is still to be said.
    Done,
    /// The id of an option.
    Id,
    /// The name of an inner option, whose id comes next.
    Name,
    /// The class of a custom type.
    Class { node: u32 },
    /// The keyspace of a user-defined type.
    Keyspace { node: u32 },
    /// The name of a user-defined type.
    TypeName { node: u32 },
    /// The number of inner options of the type that begins at this node.
    Fields { node: u32, named: bool },
}

/// What is still to be read of a type option: what is read now, and what is left of the options around it.
pub(crate) struct Remaining {
    pub(crate) stage: OptionStage,
    pub(crate) open_options: OpenOptions,
}

impl Remaining {
    /// Goes on after an item: what part of the option it is, or why its type is refused.
    #[cfg_attr(not(feature = "cli"), inline)]
    pub(crate) fn follow(
        &mut self,
        limits: &Asked,
        item: FieldOutline,
        table: &mut TypeTable,
    ) -> Result<TypeOutline, Reason> {
        match self.stage {
            OptionStage::Idle | OptionStage::Done => unreachable!(),
            OptionStage::Id => self.take_id(limits, number_in(item), table),
            OptionStage::Fields { node, named } => {
                let count = number_in(item);
                table.set_arity(count);
                self.stage = enter_option(&mut self.open_options, node, named, count, table);
                Ok(TypeOutline::Count(count.into()))
            }
            OptionStage::Name => {
                self.stage = OptionStage::Id;
                Ok(TypeOutline::Text(Field::FieldName, item))
            }
            OptionStage::Class { node } => {
                self.stage = enter_option(&mut self.open_options, node, false, 0, table);
                Ok(TypeOutline::Text(Field::Class, item))
            }
            OptionStage::Keyspace { node } => {
                self.stage = OptionStage::TypeName { node };
                Ok(TypeOutline::Text(Field::Keyspace, item))
            }
            OptionStage::TypeName { node } => {
                self.stage = OptionStage::Fields { node, named: true };
                Ok(TypeOutline::Text(Field::TypeName, item))
            }
        }
    }

    /// Goes on after the id of an option, whose node is added to the table.
    #[cfg_attr(not(feature = "cli"), inline)]
    fn take_id(
        &mut self,
        limits: &Asked,
        id: u16,
        table: &mut TypeTable,
    ) -> Result<TypeOutline, Reason> {
        let Some(kind) = kind_or_lenient(limits.lenient, id) else {
            return Err(Reason::BadType);
        };
        if self.open_options.len() >= limits.depth {
            return Err(Reason::TooDeep);
        }
        if table.len() >= limits.entries {
            return Err(Reason::TooMany);
        }
        let node = table.len();
        let arity = kind.arity();
        table.kit_push(Node {
            kind,
            arity,
            span: 0,
        });
        self.stage = match kind {
            Kind::Custom => OptionStage::Class { node },
            Kind::Udt => OptionStage::Keyspace { node },
            Kind::Tuple => OptionStage::Fields { node, named: false },
            _ => enter_option(&mut self.open_options, node, false, arity, table),
        };
        Ok(TypeOutline::Node(kind))
    }
}

/// The kind of an option of this id: of an unknown type, where no kind has the id and the caller is lenient.
fn kind_or_lenient(lenient: bool, id: u16) -> Option<Kind> {
    match Kind::from_id(id) {
        None if lenient => Some(Kind::Raw),
        known => known,
    }
}

/// The number that an item is; 0 where it is no \[short\].
fn number_in(item: FieldOutline) -> u16 {
    match item {
        FieldOutline::Plain(Prim::Short(number)) => number,
        _ => 0,
    }
}

/// Goes on to the inner options of the option that begins at this node.
#[cfg_attr(not(feature = "cli"), inline)]
fn enter_option(
    around: &mut OpenOptions,
    node: u32,
    named: bool,
    count: u16,
    table: &mut TypeTable,
) -> OptionStage {
    around.kit_push(node, named, count);
    close_whole_types(around, table)
}

/// Goes on to what comes next. Each type that is whole before it gets its span.
#[cfg_attr(not(feature = "cli"), inline)]
fn close_whole_types(
    around: &mut OpenOptions,
    table: &mut TypeTable,
) -> OptionStage {
    loop {
        match around.next() {
            NextOption::Inner { named: true } => return OptionStage::Name,
            NextOption::Inner { named: false } => return OptionStage::Id,
            NextOption::Whole(node) => table.close(node),
            NextOption::Nothing => return OptionStage::Done,
        }
    }
}
