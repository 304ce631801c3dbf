//! All events of a piece, handed to what makes rows of cells.
//!
//! The decoder's loops are compiled once, for a `CellSink`, and not again for each type of rows: a scalar cell goes on by one call of a
//! method of its kind, with its content in registers.

use crate::cqlp_decode::{Decoder, Fed};
use crate::cqlp_grammar::{Event, Sink, SinkFault};
use crate::cqlp_kind::Scalar;
use crate::cqlp_note::Address;

/// Hands the kinds of scalars to a macro: a method for each, its arguments, and the scalar that they make.
macro_rules! for_kinds {
    ($macro:ident) => {
        $macro! {
            custom(bytes: &[u8]) [Scalar::Custom(bytes)];
            ascii(text: &str) [Scalar::Ascii(text)];
            bigint(number: i64) [Scalar::Bigint(number)];
            blob(bytes: &[u8]) [Scalar::Blob(bytes)];
            boolean(truth: bool) [Scalar::Boolean(truth)];
            counter(number: i64) [Scalar::Counter(number)];
            decimal(scale: i32, unscaled: &[u8]) [Scalar::Decimal { scale, unscaled }];
            double(bytes: [u8; 8]) [Scalar::Double(bytes)];
            float(bytes: [u8; 4]) [Scalar::Float(bytes)];
            int(number: i32) [Scalar::Int(number)];
            timestamp(number: i64) [Scalar::Timestamp(number)];
            uuid(bytes: [u8; 16]) [Scalar::Uuid(bytes)];
            varchar(text: &str) [Scalar::Varchar(text)];
            varint(bytes: &[u8]) [Scalar::Varint(bytes)];
            timeuuid(bytes: [u8; 16]) [Scalar::Timeuuid(bytes)];
            inet(address: Address) [Scalar::Inet(address)];
            date(days: u32) [Scalar::Date(days)];
            time(number: i64) [Scalar::Time(number)];
            smallint(number: i16) [Scalar::Smallint(number)];
            tinyint(number: i8) [Scalar::Tinyint(number)];
            raw(bytes: &[u8]) [Scalar::Raw(bytes)];
        }
    };
}
pub(crate) use for_kinds;

macro_rules! declare {
    ($($method:ident($($content:ident: $type:ty),+) [$($scalar:tt)+];)+) => {
        /// What makes rows of cells: each method takes a scalar cell of a kind, at an offset.
        pub(crate) trait TakesCells {
            $(fn $method(&mut self, at: u64, row: u32, column: u32, $($content: $type),+) -> Result<(), SinkFault>;)+

            /// Takes an event that is no scalar cell.
            fn other(&mut self, at: u64, event: &Event<'_>) -> Result<(), SinkFault>;
        }

        impl Sink for CellSink<'_> {
            #[inline(always)]
            fn take(&mut self, at: u64, event: &Event<'_>) -> Result<(), SinkFault> {
                match *event {
                    Event::Leaf { row, column, level: 0, scalar } => match scalar {
                        $($($scalar)+ => self.0.$method(at, row, column, $($content),+),)+
                    },
                    _ => self.0.other(at, event),
                }
            }
        }
    };
}
for_kinds!(declare);

/// Implements the methods of `TakesCells` by `take_scalar`.
macro_rules! implement {
    ($($method:ident($($content:ident: $type:ty),+) [$($scalar:tt)+];)+) => {$(
        fn $method(&mut self, at: u64, row: u32, column: u32, $($content: $type),+) -> Result<(), SinkFault> {
            self.take_scalar(at, row, column, $($scalar)+)
        }
    )+};
}
pub(crate) use implement;

/// A sink that hands on each event.
pub(crate) struct CellSink<'s>(pub(crate) &'s mut dyn TakesCells);

/// Hands all events that a piece leads to to what makes rows of cells.
pub(crate) fn feed(decoder: &mut Decoder, piece: &[u8], cells: &mut dyn TakesCells) -> Fed {
    decoder.feed(piece, &mut CellSink(cells))
}
