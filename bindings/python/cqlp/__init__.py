"""cqlp: the CQL binary protocol, version 4 (native_protocol_v4.spec of Apache Cassandra), read as events.

`rows(source)` gives the rows of a stream's pages, `columns(source)` their columns, numbers as arrays, `arrays(source)` batches of rows in the
layout of Apache Arrow, `frames(source)` the frames, each message a dataclass of `cqlp.messages`, `events(source)` the events, `check(data)` the
verdict. `encode` writes a frame of its message or of its events, a `PageWriter` a page of any size. A `MessageDecoder` and a `Decoder` take the
pieces of a stream as they come, a `Client` pairs replies with requests, a `Server` knows which requests it has not answered. All use the
proved library libcqlp, whose interface is include/cqlp.h.
"""

from . import messages
from ._arrays import ArrayBatch, Batches, CellTooLong, ColumnArray, arrays
from ._client import Client, Reply, Ticket
from ._columns import PageColumns, Series, columns
from ._core import event_header, header, version_error
from ._decoder import BadCall, BadLimits, Closed, Cut, Decoder, Held, Limits, Refused, Skipped, Verdict, check
from ._encode import BadEvent, encode_frames
from ._events import Event
from ._message_decoder import MessageDecoder, OtherVersion
from ._message_events import encode
from ._missing import ColumnsMissing, Missing, ValuesMissing
from ._names import name, version, version_number
from ._paged import PageWriter, cells_size
from ._pages import Page, Pages, Types, rows
from ._server import Answered, Server
from ._sources import events
from ._turns import Error, InUse
from ._types import Column, Type
from ._value_events import BadValue, bind, cell_events
from ._values import EMPTY, UNSET, Days, Milliseconds, Nanoseconds, Unset
from ._version import __version__ as __version__
from .messages import Frame, FrameTooLong, frames
from .numbers import (
    BatchType,
    Code,
    Consistency,
    End,
    ErrorCode,
    Field,
    Group,
    Kind,
    Mark,
    Opcode,
    Phase,
    Reason,
    ReplyKind,
    ResultKind,
    Tag,
)

__all__ = [
    "Answered",
    "ArrayBatch",
    "arrays",
    "BadCall",
    "BadEvent",
    "BadLimits",
    "BadValue",
    "Batches",
    "BatchType",
    "bind",
    "cell_events",
    "cells_size",
    "CellTooLong",
    "check",
    "Client",
    "Closed",
    "Code",
    "Column",
    "ColumnArray",
    "ColumnsMissing",
    "columns",
    "Consistency",
    "Cut",
    "Days",
    "Decoder",
    "EMPTY",
    "encode",
    "encode_frames",
    "End",
    "Error",
    "ErrorCode",
    "Event",
    "event_header",
    "events",
    "Field",
    "Frame",
    "frames",
    "FrameTooLong",
    "Group",
    "header",
    "Held",
    "InUse",
    "Kind",
    "Limits",
    "Mark",
    "MessageDecoder",
    "messages",
    "Milliseconds",
    "Missing",
    "name",
    "Nanoseconds",
    "Opcode",
    "OtherVersion",
    "Page",
    "PageColumns",
    "Pages",
    "PageWriter",
    "Phase",
    "Reason",
    "Refused",
    "Reply",
    "ReplyKind",
    "ResultKind",
    "rows",
    "Series",
    "Server",
    "Skipped",
    "Tag",
    "Ticket",
    "Type",
    "Types",
    "UNSET",
    "Unset",
    "ValuesMissing",
    "Verdict",
    "version",
    "version_error",
    "version_number",
]
