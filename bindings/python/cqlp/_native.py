"""The calls of include/cqlp.h, by ctypes."""

import ctypes
import functools
import importlib
import os
import struct
from ctypes import POINTER, c_char_p, c_int16, c_int32, c_int64, c_size_t, c_uint8, c_uint32, c_uint64, c_void_p
from pathlib import Path
from typing import Any

from ._version import __version__


class Limits(ctypes.Structure):
    _fields_ = [
        ("text", c_uint32),
        ("cell", c_uint32),
        ("entries", c_uint32),
        ("depth", c_uint32),
        ("types", c_uint8),
        ("parts", c_uint8),
    ]


class Handle(ctypes.Structure):
    """That of a core, of a table of types, of columns, or of a page."""

    _fields_ = [("live", c_uint64), ("place", c_void_p)]


class DecoderHandle(ctypes.Structure):
    _fields_ = [("live", c_uint64), ("place", c_void_p), ("course", c_uint64 * 6)]


class Event(ctypes.Structure):
    _fields_ = [
        ("at", c_uint64),
        ("content", c_void_p),
        ("length", c_size_t),
        ("number", c_int64),
        ("row", c_uint32),
        ("column", c_uint32),
        ("level", c_uint32),
        ("extra", c_int32),
        ("bytes", c_uint8 * 16),
        ("tag", c_uint8),
        ("field", c_uint8),
        ("kind", c_uint8),
        ("opcode", c_uint8),
        ("flags", c_uint8),
        ("mark", c_uint8),
        ("octets", c_uint8),
    ]


class Batch(ctypes.Structure):
    _fields_ = [("used", c_size_t), ("events", c_size_t), ("at", c_uint64), ("stop", c_uint8), ("reason", c_uint8)]


class Skipped(ctypes.Structure):
    _fields_ = [("frame", Event), ("at", c_uint64), ("rest", c_uint64), ("reason", c_uint8)]


class End(ctypes.Structure):
    _fields_ = [("at", c_uint64), ("bytes", c_uint64), ("verdict", c_uint8), ("reason", c_uint8)]


class Holding(ctypes.Structure):
    _fields_ = [("bytes", c_uint32), ("entries", c_uint32), ("levels", c_uint32)]


class Ticket(ctypes.Structure):
    _fields_ = [("number", c_uint64), ("id", c_int16)]


class Reply(ctypes.Structure):
    _fields_ = [("number", c_uint64), ("carried", c_uint64), ("id", c_int16), ("what", c_uint8), ("request", c_uint8)]


class Answered(ctypes.Structure):
    _fields_ = [("carried", c_uint64), ("request", c_uint8)]


class Header(ctypes.Structure):
    _fields_ = [("length", c_uint32), ("stream", c_int16), ("opcode", c_uint8), ("flags", c_uint8), ("response", c_uint8)]


class Encoded(ctypes.Structure):
    _fields_ = [("length", c_size_t), ("event", c_size_t)]


class Measured(ctypes.Structure):
    _fields_ = [("size", c_uint64), ("event", c_size_t)]


class Put(ctypes.Structure):
    _fields_ = [("events", c_size_t), ("used", c_size_t), ("length", c_size_t), ("event", c_size_t), ("wanted", c_size_t)]


class BatchLimits(ctypes.Structure):
    _fields_ = [("columns", c_uint32), ("rows", c_uint32), ("bytes", c_uint32), ("content", c_uint32)]


class Column(ctypes.Structure):
    _fields_ = [
        ("values", c_void_p),
        ("offsets", c_void_p),
        ("validity", c_void_p),
        ("empties", c_void_p),
        ("size", c_size_t),
        ("bounds", c_size_t),
        ("cells", c_size_t),
        ("kind", c_uint8),
    ]


# The members of an event, in the order of Event: many are read at once.
RECORD = struct.Struct("@QPNqIIIi16sBBBBBBB0Q")
if RECORD.size != ctypes.sizeof(Event):
    raise ImportError("cqlp: an event has another size here")
# The members of a column, in the order of Column.
VIEW = struct.Struct("@PPPPNNNB0Q")


# The number of the layout of these structs, CQLP_LAYOUT of include/cqlp.h, and the calls that pass it to the library.
LAYOUT = 0xCF3119DD
BY_LAYOUT = frozenset(
    "cqlp_" + name
    for name in (
        "new new_lenient check types_of take_given columns_new client_new server_new write_header encode page_measure page_begin".split()
    )
)


def compiled(name: str) -> Any:
    """The module in C of this name, where it was built and its events have this size; else None."""
    try:
        module = importlib.import_module("." + name, __package__)
    except ImportError:
        return None
    return module if module.EVENT_SIZE == RECORD.size else None


DONE, BAD_TEXT, BAD_CELL, BAD_ENTRIES, BAD_DEPTH, NO_MEMORY, NO_DECODER, IN_USE, NO_CLIENT, BAD_SLOTS = range(10)
NO_SERVER, NO_ROOM = 23, 27


def _load() -> ctypes.CDLL:
    """The library that CQLP_LIBRARY names; else that beside this file; else what bindings/build made; else the system's."""
    named = os.environ.get("CQLP_LIBRARY")
    if named:
        return ctypes.CDLL(named)
    here = Path(__file__).resolve()
    for place in (here.parent, here.parents[2] / "out"):
        if (place / "libcqlp.so").exists():
            return ctypes.CDLL(str(place / "libcqlp.so"))
    try:
        return ctypes.CDLL("libcqlp.so")
    except OSError as error:
        raise ImportError("cqlp: there is no libcqlp.so; in a clone `bindings/build --erased` makes it") from error


def _same(loaded: ctypes.CDLL) -> ctypes.CDLL:
    """A library that has the version of this package."""
    loaded.cqlp_version.restype = c_char_p
    version = loaded.cqlp_version().decode()
    if version != __version__:
        raise ImportError("cqlp %s: the library %s has version %s" % (__version__, loaded._name, version))
    return loaded


library: ctypes.CDLL = _same(_load())

for name, result, arguments in (
    ("cqlp_new", c_uint32, [POINTER(Limits), POINTER(DecoderHandle)]),
    ("cqlp_new_lenient", c_uint32, [POINTER(Limits), POINTER(DecoderHandle)]),
    ("cqlp_next", c_uint32, [POINTER(DecoderHandle), c_void_p, c_size_t, c_void_p, c_size_t, POINTER(Batch)]),
    ("cqlp_skip", c_uint32, [POINTER(DecoderHandle), POINTER(Skipped)]),
    ("cqlp_finish", c_uint32, [POINTER(DecoderHandle), POINTER(End)]),
    ("cqlp_held", c_uint32, [POINTER(DecoderHandle), POINTER(Holding)]),
    ("cqlp_free", c_uint32, [POINTER(DecoderHandle)]),
    ("cqlp_check", c_uint32, [POINTER(Limits), c_void_p, c_size_t, POINTER(End)]),
    ("cqlp_types_of", c_uint32, [POINTER(DecoderHandle), POINTER(Handle)]),
    ("cqlp_give", c_uint32, [POINTER(DecoderHandle), POINTER(Handle)]),
    ("cqlp_types_free", c_uint32, [POINTER(Handle)]),
    ("cqlp_columns_new", c_uint32, [POINTER(BatchLimits), c_char_p, c_size_t, POINTER(Handle)]),
    ("cqlp_columns_next", c_uint32, [POINTER(DecoderHandle), POINTER(Handle), c_void_p, c_size_t, POINTER(Event), POINTER(Batch)]),
    ("cqlp_columns_get", c_uint32, [POINTER(Handle), c_size_t, POINTER(Column)]),
    ("cqlp_columns_clear", c_uint32, [POINTER(Handle)]),
    ("cqlp_columns_free", c_uint32, [POINTER(Handle)]),
    ("cqlp_client_new", c_uint32, [c_uint32, POINTER(Handle)]),
    ("cqlp_client_begin", c_uint32, [POINTER(Handle), c_uint8, c_uint64, POINTER(Ticket)]),
    ("cqlp_client_reply", c_uint32, [POINTER(Handle), POINTER(Event), POINTER(Reply)]),
    ("cqlp_client_cancel", c_uint32, [POINTER(Handle), POINTER(Ticket)]),
    ("cqlp_client_phase", c_uint32, [POINTER(Handle), POINTER(c_uint8)]),
    ("cqlp_client_free", c_uint32, [POINTER(Handle)]),
    ("cqlp_server_new", c_uint32, [c_uint32, POINTER(Handle)]),
    ("cqlp_server_accept", c_uint32, [POINTER(Handle), POINTER(Event), c_uint64]),
    ("cqlp_server_answer", c_uint32, [POINTER(Handle), c_int16, c_uint8, POINTER(Answered)]),
    ("cqlp_server_event", c_uint32, [c_uint32, c_uint8, POINTER(c_uint8 * 9)]),
    ("cqlp_server_phase", c_uint32, [POINTER(Handle), POINTER(c_uint8)]),
    ("cqlp_server_free", c_uint32, [POINTER(Handle)]),
    ("cqlp_version_error", c_uint32, [POINTER(c_uint8 * 9), c_void_p, c_size_t, POINTER(c_size_t)]),
    ("cqlp_write_header", c_uint32, [POINTER(Header), POINTER(c_uint8 * 9)]),
    ("cqlp_encode", c_uint32, [c_void_p, c_size_t, c_void_p, c_size_t, c_void_p, c_size_t, POINTER(Encoded)]),
    ("cqlp_page_measure", c_uint32, [c_void_p, c_size_t, c_void_p, c_size_t, POINTER(Measured)]),
    (
        "cqlp_page_begin",
        c_uint32,
        [c_void_p, c_size_t, c_void_p, c_size_t, c_uint64, c_void_p, c_size_t, POINTER(Handle), POINTER(Encoded)],
    ),
    ("cqlp_page_put", c_uint32, [POINTER(Handle), c_void_p, c_size_t, c_void_p, c_size_t, c_void_p, c_size_t, POINTER(Put)]),
    ("cqlp_page_end", c_uint32, [POINTER(Handle)]),
    ("cqlp_page_free", c_uint32, [POINTER(Handle)]),
    ("cqlp_name", c_char_p, [c_uint32, c_int64]),
    ("cqlp_version", c_char_p, []),
    ("cqlp_version_number", c_uint32, []),
):
    given: Any = arguments
    if name in BY_LAYOUT:
        call = getattr(library, name + "_by_layout")
        setattr(library, name, functools.partial(call, LAYOUT))
        given = [c_uint32, *given]
    else:
        call = getattr(library, name)
    call.argtypes = given
    call.restype = result
