//! `Debug` of what holds a state that says nothing to a reader: the name of its type. Written by hand, and not proved.
use core::fmt;

use crate::cqlp_build::FrameBuilder;
use crate::cqlp_build_cells::CellBuilder;
use crate::cqlp_capture::CaptureReader;
use crate::cqlp_columns::{Column, Columns, PageColumns};
use crate::cqlp_compose::{BegunPage, Composer, OpenPage, PageCells, PutCells};
use crate::cqlp_decode::Decoder;
use crate::cqlp_encode::PageWriter;
use crate::cqlp_grammar::Sink;
use crate::cqlp_message::PartRef;
use crate::cqlp_note::LimitRange;
#[cfg(feature = "std")]
use crate::cqlp_note::OfStd;
use crate::cqlp_observer::{Heads, Kept, Pairing, Watch, WatchStep};
use crate::cqlp_observer_facts::FactsReader;
use crate::cqlp_row_text::TablePlace;
use crate::cqlp_session::{Client, ClientOf, IntoValues, Server, ServerOf};
use crate::cqlp_skip::SkippingDecoder;
#[cfg(feature = "std")]
use crate::cqlp_sockets::OfSocket;
use crate::cqlp_tcp_reassembly::Stream;
use crate::cqlp_text::PagePlace;
use crate::cqlp_type::TypeTable;

/// Shows the names of these types, each behind the parameters of its `impl`.
macro_rules! named {
    ($($([$($parameter:tt)*])? $name:ident $(<$argument:tt>)?,)*) => {
        $(impl $(<$($parameter)*>)? fmt::Debug for $name $(<$argument>)? {
            fn fmt(&self, f: &mut fmt::Formatter<'_>) -> fmt::Result {
                f.debug_struct(stringify!($name)).finish_non_exhaustive()
            }
        })*
    };
}

named! {
    BegunPage,
    CaptureReader,
    CellBuilder,
    Client,
    [T] ClientOf<T>,
    Column,
    Columns,
    Composer,
    Decoder,
    FactsReader,
    FrameBuilder,
    Heads,
    [T] IntoValues<T>,
    Kept,
    LimitRange,
    OpenPage,
    PageCells<'_>,
    [S: Sink] PageColumns<S>,
    PagePlace,
    PageWriter<'_>,
    [T] Pairing<T>,
    PartRef<'_>,
    PutCells<'_>,
    Server,
    [T] ServerOf<T>,
    SkippingDecoder,
    Stream,
    TablePlace,
    TypeTable,
    Watch,
    WatchStep,
}

#[cfg(feature = "std")]
named! {
    [X] OfSocket<X>,
    [X] OfStd<X>,
}
