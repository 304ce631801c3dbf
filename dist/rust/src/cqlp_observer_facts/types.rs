// Written by dist/erase from crates/cqlp_observer_facts/src/types.rt.
//! The types of a page's columns, which may lie within one another. Section 4.2.5.2 of `native_protocol_v4.spec`.

/// What is still to be read at one level: so many types, and then so many fields, each a name and a type.
#[derive(Clone, Copy)]
pub(crate) struct Level {
    pub(crate) types: u32,
    pub(crate) fields: u32,
    /// Whether two more names, of a keyspace and a table, go before each field's own.
    pub(crate) qualified: bool,
}

/// What is still to be read: the innermost level first, and those around it. The columns of a page are the fields of the outermost one.
#[derive(Clone, Copy)]
pub(crate) struct Types {
    pub(crate) first: Level,
    pub(crate) second: Level,
    pub(crate) third: Level,
    pub(crate) fourth: Level,
}

/// What comes next.
#[derive(Clone, Copy)]
pub(crate) enum TypesNext {
    /// A type.
    Type(Types),
    /// The names of a field, so many after the first, and then its type.
    Names { more: u16, types: Types },
    /// Nothing.
    Over,
}

impl Level {
    #[inline(always)]
    fn over() -> Level {
        Level {
            types: 0,
            fields: 0,
            qualified: false,
        }
    }

    #[inline(always)]
    fn is_over(&self) -> bool {
        self.types == 0 && self.fields == 0
    }
}

impl Types {
    /// So many columns.
    #[inline(always)]
    pub(crate) fn of_columns(count: u32, qualified: bool) -> Types {
        Types {
            first: Level {
                types: 0,
                fields: count,
                qualified,
            },
            second: Level::over(),
            third: Level::over(),
            fourth: Level::over(),
        }
    }

    /// So many more types at the innermost level.
    #[inline(always)]
    pub(crate) fn with_types(self, count: u32) -> Types {
        Types {
            first: Level {
                types: self.first.types.saturating_add(count),
                ..self.first
            },
            ..self
        }
    }

    /// So many fields come before all that, if there is room for one more level.
    pub(crate) fn with_fields(self, count: u32) -> Option<Types> {
        let first = Level {
            types: 0,
            fields: count,
            qualified: false,
        };
        if self.first.is_over() {
            Some(Types { first, ..self })
        } else if self.fourth.is_over() {
            Some(Types {
                first,
                second: self.first,
                third: self.second,
                fourth: self.third,
            })
        } else {
            None
        }
    }

    /// What comes next.
    #[inline(always)]
    pub(crate) fn next(self) -> TypesNext {
        let types = self.innermost();
        let level = types.first;
        if level.types > 0 {
            TypesNext::Type(types.with_first(level.types - 1, level.fields))
        } else if level.fields > 0 {
            TypesNext::Names {
                more: if level.qualified { 2 } else { 0 },
                types: types.with_first(1, level.fields - 1),
            }
        } else {
            TypesNext::Over
        }
    }

    /// Without the innermost level, if nothing of it is left.
    #[inline(always)]
    fn innermost(self) -> Types {
        if self.first.is_over() {
            Types {
                first: self.second,
                second: self.third,
                third: self.fourth,
                fourth: Level::over(),
            }
        } else {
            self
        }
    }

    #[inline(always)]
    fn with_first(self, types: u32, fields: u32) -> Types {
        Types {
            first: Level {
                types,
                fields,
                ..self.first
            },
            ..self
        }
    }
}
