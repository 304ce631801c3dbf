//! Rust types, read from rows.

use crate::rows::cell::LentCell;
use crate::rows::cells::{NotRead, RowCells};
use crate::rows::error::Mismatch;
use crate::rows::from_cell::FromCell;

/// A type that a row becomes, field by field as its cells come. [`row!`](crate::row) implements it for a struct, whose fields are found by
/// the names of columns; tuples of up to 12 fields have it by the places of columns, of which a page may have more.
pub trait Row: Sized {
    /// The fields that came.
    type Partial: Default;
    /// How many fields there are.
    const WIDTH: usize;
    /// The names of their columns, in the order of the fields; None where fields are read by the places of columns.
    const NAMES: Option<&'static [&'static str]>;

    /// The row of these fields, which it takes; None where one did not come.
    fn finish(partial: &mut Self::Partial) -> Option<Self>;
}

/// A [`Row`] whose fields are read from cells that are lent for `'a`.
pub trait FromRow<'a>: Row {
    /// Sets the field with this number. A number from [`Row::WIDTH`] on is no field's, and sets nothing.
    ///
    /// # Errors
    ///
    /// Why the cell is no value of the field's type.
    fn set(partial: &mut Self::Partial, field: usize, cell: LentCell<'a, '_>) -> Result<(), Mismatch>;

    /// The row of cells that are its fields in their order; None of a type that is made by `set` alone.
    ///
    /// # Errors
    ///
    /// Why it is not read.
    #[doc(hidden)]
    #[inline(always)]
    fn read(_cells: &mut RowCells<'a, '_>) -> Result<Option<Self>, NotRead> {
        Ok(None)
    }
}

/// The most fields of a type whose reading is compiled into each place where a field or a row is made, which is the fastest. That of a wider
/// type is compiled once, in functions of its own: in all those places it would take the compiler minutes.
const NARROW: usize = 16;

/// Whether a type with so many fields is a wide one.
#[doc(hidden)]
#[must_use]
pub const fn is_wide(width: usize) -> bool {
    width > NARROW
}

/// Sets a field of a row.
#[inline(always)]
pub(crate) fn set<'a, T: FromRow<'a>>(partial: &mut T::Partial, field: usize, cell: LentCell<'a, '_>) -> Result<(), Mismatch> {
    if is_wide(T::WIDTH) { set_apart::<T>(partial, field, cell) } else { T::set(partial, field, cell) }
}

#[inline(never)]
fn set_apart<'a, T: FromRow<'a>>(partial: &mut T::Partial, field: usize, cell: LentCell<'a, '_>) -> Result<(), Mismatch> {
    T::set(partial, field, cell)
}

/// Sets the field that lies here, of a type that is wide or not.
///
/// # Errors
///
/// As [`FromCell::from_cell`].
#[doc(hidden)]
#[inline(always)]
pub fn set_field<'a, const WIDE: bool, T: FromCell<'a>>(field: &mut Option<T>, cell: LentCell<'a, '_>) -> Result<(), Mismatch> {
    if WIDE {
        set_field_apart(field, cell)
    } else {
        *field = Some(T::from_cell(cell)?);
        Ok(())
    }
}

#[inline(never)]
fn set_field_apart<'a, T: FromCell<'a>>(field: &mut Option<T>, cell: LentCell<'a, '_>) -> Result<(), Mismatch> {
    *field = Some(T::from_cell(cell)?);
    Ok(())
}

/// Reads a row.
#[inline(always)]
pub(crate) fn read<'a, T: FromRow<'a>>(cells: &mut RowCells<'a, '_>) -> Result<Option<T>, NotRead> {
    if is_wide(T::WIDTH) { read_apart(cells) } else { T::read(cells) }
}

#[inline(never)]
fn read_apart<'a, T: FromRow<'a>>(cells: &mut RowCells<'a, '_>) -> Result<Option<T>, NotRead> {
    T::read(cells)
}

/// Makes the row of the fields that came.
#[inline(always)]
pub(crate) fn finish<T: Row>(partial: &mut T::Partial) -> Option<T> {
    if is_wide(T::WIDTH) { finish_apart(partial) } else { T::finish(partial) }
}

#[inline(never)]
fn finish_apart<T: Row>(partial: &mut T::Partial) -> Option<T> {
    T::finish(partial)
}

/// Implements both traits for tuples of these types.
macro_rules! tuples {
    ($($type:ident $place:tt)+; $width:literal) => {
        impl<$($type),+> Row for ($($type,)+) {
            type Partial = ($(Option<$type>,)+);
            const WIDTH: usize = $width;
            const NAMES: Option<&'static [&'static str]> = None;

            #[inline(always)]
            fn finish(partial: &mut Self::Partial) -> Option<Self> {
                Some(($(partial.$place.take()?,)+))
            }
        }

        impl<'a, $($type: FromCell<'a>),+> FromRow<'a> for ($($type,)+) {
            #[inline(always)]
            fn set(partial: &mut Self::Partial, field: usize, cell: LentCell<'a, '_>) -> Result<(), Mismatch> {
                match field {
                    $($place => partial.$place = Some($type::from_cell(cell)?),)+
                    _ => {}
                }
                Ok(())
            }

            #[inline(always)]
            fn read(cells: &mut RowCells<'a, '_>) -> Result<Option<Self>, NotRead> {
                let mut first = cells.first($width);
                let row = ($(first.take::<$type>($place)?,)+);
                cells.pass(first);
                Ok(Some(row))
            }
        }
    };
}

tuples! { A 0; 1 }
tuples! { A 0 B 1; 2 }
tuples! { A 0 B 1 C 2; 3 }
tuples! { A 0 B 1 C 2 D 3; 4 }
tuples! { A 0 B 1 C 2 D 3 E 4; 5 }
tuples! { A 0 B 1 C 2 D 3 E 4 F 5; 6 }
tuples! { A 0 B 1 C 2 D 3 E 4 F 5 G 6; 7 }
tuples! { A 0 B 1 C 2 D 3 E 4 F 5 G 6 H 7; 8 }
tuples! { A 0 B 1 C 2 D 3 E 4 F 5 G 6 H 7 I 8; 9 }
tuples! { A 0 B 1 C 2 D 3 E 4 F 5 G 6 H 7 I 8 J 9; 10 }
tuples! { A 0 B 1 C 2 D 3 E 4 F 5 G 6 H 7 I 8 J 9 K 10; 11 }
tuples! { A 0 B 1 C 2 D 3 E 4 F 5 G 6 H 7 I 8 J 9 K 10 L 11; 12 }

/// A struct that rows become. Each field is read from the column of its name, or of the name after `=`, wherever that is among the
/// columns of a page; other columns are passed over. The struct may have one lifetime, for what it lends from a page in memory.
///
/// ```
/// cqlp::row! {
///     /// A user of the shop.
///     #[derive(Debug, PartialEq)]
///     pub struct User<'a> {
///         pub id: i32,
///         pub name: &'a str,
///         pub friends: Option<Vec<i32>> = "friends of",
///     }
/// }
/// ```
#[macro_export]
macro_rules! row {
    ($(#[$meta:meta])* $vis:vis struct $name:ident {
        $($(#[$of:meta])* $seen:vis $field:ident : $type:ty $(= $column:literal)?),+ $(,)?
    }) => {
        $(#[$meta])*
        $vis struct $name { $($(#[$of])* $seen $field: $type),+ }
        $crate::row! { @ $name [] ['cell] $($field $type, ($($column)?)),+ }
    };
    ($(#[$meta:meta])* $vis:vis struct $name:ident<$life:lifetime> {
        $($(#[$of:meta])* $seen:vis $field:ident : $type:ty $(= $column:literal)?),+ $(,)?
    }) => {
        $(#[$meta])*
        $vis struct $name<$life> { $($(#[$of])* $seen $field: $type),+ }
        $crate::row! { @ $name [$life] [$life] $($field $type, ($($column)?)),+ }
    };
    (@ $name:ident [$($life:lifetime)?] [$cell:lifetime] $($field:ident $type:ty, $column:tt),+) => {
        const _: () = {
            #[allow(non_camel_case_types)]
            enum __Field { $($field),+ }

            /// The number of each field.
            struct __At;

            #[allow(non_upper_case_globals)]
            impl __At { $(const $field: usize = __Field::$field as usize;)+ }

            const __WIDTH: usize = [$(__At::$field),+].len();

            #[derive(Default)]
            pub struct __Partial<$($life)?> { $($field: ::core::option::Option<$type>),+ }

            impl<$($life)?> $crate::rows::Row for $name<$($life)?> {
                type Partial = __Partial<$($life)?>;
                const WIDTH: usize = __WIDTH;
                const NAMES: ::core::option::Option<&'static [&'static str]> =
                    ::core::option::Option::Some(&[$($crate::row!(= $field $column)),+]);

                #[inline(always)]
                fn finish(partial: &mut Self::Partial) -> ::core::option::Option<Self> {
                    ::core::option::Option::Some($name { $($field: partial.$field.take()?),+ })
                }
            }

            impl<$cell> $crate::rows::FromRow<$cell> for $name<$($life)?> {
                #[inline(always)]
                fn set(
                    partial: &mut Self::Partial,
                    field: usize,
                    cell: $crate::rows::LentCell<$cell, '_>,
                ) -> ::core::result::Result<(), $crate::rows::Mismatch> {
                    match field {
                        $(__At::$field => $crate::rows::set_field::<{ $crate::rows::is_wide(__WIDTH) }, _>(&mut partial.$field, cell),)+
                        _ => ::core::result::Result::Ok(()),
                    }
                }

                #[inline(always)]
                fn read(
                    cells: &mut $crate::rows::RowCells<$cell, '_>,
                ) -> ::core::result::Result<::core::option::Option<Self>, $crate::rows::NotRead> {
                    let mut first = cells.first(__WIDTH);
                    let row = $name { $($field: first.take_of::<{ $crate::rows::is_wide(__WIDTH) }, _>(__At::$field)?),+ };
                    cells.pass(first);
                    ::core::result::Result::Ok(::core::option::Option::Some(row))
                }
            }
        };
    };
    (= $field:ident ()) => { stringify!($field) };
    (= $field:ident ($column:literal)) => { $column };
}
