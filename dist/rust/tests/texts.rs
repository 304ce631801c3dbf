//! What errors say: no contract speaks of their texts.
#![forbid(unsafe_code)]

use cqlp::frame::{AppendError, BindError, EncodeError, PageError, ValueError};
use cqlp::session::{AnswerError, BeginError, Phase, SlotsOrMemory, Stray};
use cqlp::{BadLimits, FaultAfter, GiveReason, IoFault, NewError, NoMemory};
use std::fmt::Display;

#[test]
fn errors_say_what_is_wrong() {
    let texts: [(&dyn Display, &str); 36] = [
        (&BadLimits::Text, "the limit on a text is not from 32 to 16777216"),
        (&BadLimits::Cell, "the limit on a cell is not from 32 to 16777216"),
        (&BadLimits::Entries, "the limit on type options is not from 1 to 65536"),
        (&BadLimits::Depth, "the limit on nesting is not from 1 to 64"),
        (&NewError::BadLimits(BadLimits::Cell), "the limit on a cell is not from 32 to 16777216"),
        (&NewError::NoMemory, "no memory"),
        (&NoMemory, "no memory"),
        (&IoFault, "a read or a write failed"),
        (&FaultAfter { used: 7 }, "the sink gave up after 7 bytes"),
        (&GiveReason::Ended, "the stream was refused"),
        (&GiveReason::Off, "cells are not read by their types"),
        (&GiveReason::Busy, "a given table is in use"),
        (&GiveReason::Open, "a type of the table is not whole"),
        (&GiveReason::TooMany, "the table has more types than the limit"),
        (&GiveReason::TooDeep, "the types are nested deeper than the limit"),
        (&AppendError::NoMemory, "no memory"),
        (&BindError::Unfit, "the value is none of its type"),
        (&BindError::TooLong, "the value is longer than a frame can be"),
        (&BindError::NoMemory, "no memory"),
        (&EncodeError::Write { written: 7 }, "the target failed after 7 bytes of the frame"),
        (&PageError::OutOfTurn, "all cells are written"),
        (&PageError::PastLength, "the cells would have more bytes than were said"),
        (&PageError::NotDone, "cells, or bytes of them, are still to come"),
        (&PageError::Write { written: 7 }, "the target failed after 7 bytes of the frame"),
        (&ValueError::Unfit, "the value is none of its type"),
        (&ValueError::TooLong, "the value is longer than a frame can be"),
        (&ValueError::Write { written: 7 }, "the target failed after 7 bytes of the value"),
        (&SlotsOrMemory::BadSlots, "the number of slots is not from 1 to 32768"),
        (&SlotsOrMemory::NoMemory, "no memory"),
        (&AnswerError::NotTaken, "no request is open under this stream id"),
        (&AnswerError::WrongOpcode, "this opcode does not answer the request under this stream id"),
        (&BeginError::Phase(Phase::Ready), "requests of this kind may not begin in the phase Ready"),
        (&BeginError::Spent, "no number is left: 2^64 - 1 requests have begun"),
        (&BeginError::Full, "each stream id is taken"),
        (&Stray::NotResponse, "a request, where a response was due"),
        (&Stray::NoSuchStream, "no request is open under this stream id"),
    ];
    for (error, text) in texts {
        assert_eq!(error.to_string(), text);
    }
}
