"""Each frame says what its events say."""

import dataclasses
import inspect
import pickle
import struct
import typing
import unittest
from typing import Any, List, Tuple
from unittest import mock

import cqlp
from cqlp import Field as F
from cqlp import Tag, _pages
from cqlp import messages as m

from .streams import BINDINGS, Stream, streams
from .test_cells import exact
from .test_pages import INT, NULL, cell, list_of, made, page, text

Line = Tuple[Any, Any]


def texts(count: F, field: F, words: Any) -> List[Line]:
    return [(count, len(words)), *((field, word) for word in words)]


def pairs(count: F, first: F, second: F, found: Any) -> List[Line]:
    return [(count, len(found)), *(line for one, two in found for line in ((first, one), (second, two)))]


def zipped(some: Any, others: Any) -> List[Tuple[Any, Any]]:
    assert len(some) == len(others)
    return list(zip(some, others))


def statement(x: m.Statement) -> List[Line]:
    kind, field = (0, F.QUERY) if isinstance(x.statement, str) else (1, F.STATEMENT_ID)
    return [(F.ENTRY_KIND, kind), (field, x.statement), *texts(F.VALUES, F.VALUE, x.values)]


def parameters(x: m.Parameters) -> List[Line]:
    lines = [(F.CONSISTENCY, x.consistency), (F.QUERY_FLAGS, x.flags)]
    if x.flags & 0x41 == 0x41:
        lines += pairs(F.VALUES, F.VALUE_NAME, F.VALUE, zipped(x.names, x.values))
    elif x.flags & 0x01:
        lines += texts(F.VALUES, F.VALUE, x.values)
    parts = (
        (0x04, F.PAGE_SIZE, x.page_size),
        (0x08, F.PAGING_STATE, x.paging_state),
        (0x10, F.SERIAL_CONSISTENCY, x.serial_consistency),
        (0x20, F.TIMESTAMP, x.timestamp),
    )
    return lines + [(field, part) for flag, field, part in parts if x.flags & flag]


def batch(x: m.Batch) -> List[Line]:
    lines = [(F.BATCH_TYPE, x.type), (F.ENTRIES, len(x.statements))]
    lines += [line for one in x.statements for line in statement(one)]
    lines += [(F.CONSISTENCY, x.consistency), (F.BATCH_FLAGS, x.flags)]
    parts = ((0x10, F.SERIAL_CONSISTENCY, x.serial_consistency), (0x20, F.TIMESTAMP, x.timestamp))
    return lines + [(field, part) for flag, field, part in parts if x.flags & flag]


def supported(x: m.Supported) -> List[Line]:
    lines = [(F.OPTIONS, len(x.options))]
    for key, values in x.options:
        lines += [(F.OPTION_KEY, key), *texts(F.OPTION_VALUES, F.OPTION_VALUE, values)]
    return lines


def error(x: m.Error, *fields: F) -> List[Line]:
    """The members after the first two are its fields, in order."""
    lines: List[Line] = [(F.ERROR_CODE, x.code), (F.MESSAGE, x.message)]
    members = [getattr(x, member.name) for member in dataclasses.fields(x)][2:]
    for field, member in zipped(fields, members):
        lines += texts(field, F.ARGUMENT, member) if field == F.ARGUMENTS else [(field, member)]
    return lines


def result(kind: int, *lines: Line) -> List[Line]:
    return [(F.RESULT_KIND, kind), *lines]


def option(x: cqlp.Type) -> List[Line]:
    lines: List[Line] = [(Tag.TYPE_NODE, x.kind)]
    if x.kind == cqlp.Kind.CUSTOM:
        lines.append((F.CLASS, x.name))
    if x.kind == cqlp.Kind.UDT:
        keyspace, _, name = x.name.partition(".")
        lines += [(F.KEYSPACE, keyspace), (F.TYPE_NAME, name)]
    if x.kind in (cqlp.Kind.UDT, cqlp.Kind.TUPLE):
        lines.append((F.FIELDS, len(x.inner)))
    for at, inner in enumerate(x.inner):
        lines += [(F.FIELD_NAME, x.names[at])] if x.kind == cqlp.Kind.UDT else []
        lines += option(inner)
    return lines


def columns(flags: int, found: Tuple[cqlp.Column, ...], lines: List[Line]) -> List[Line]:
    """The specs; where all have one table, it is in `lines`, since there may be no column."""
    if flags & 1:
        (_, keyspace), (_, table) = lines
        for column in found:
            assert column[:2] == (keyspace, table)
    specs = []
    for column in found:
        specs += [] if flags & 1 else [(F.KEYSPACE, column.keyspace), (F.TABLE, column.table)]
        specs += [(F.COLUMN_NAME, column.name), *option(column.type)]
    return specs


def change(x: m.SchemaChange) -> List[Line]:
    lines: List[Line] = [(F.CHANGE, x.change), (F.TARGET, x.target)]
    lines += [] if x.keyspace is None else [(F.KEYSPACE, x.keyspace)]
    lines += [] if x.name is None else [(F.NAME, x.name)]
    return lines + ([] if x.arguments is None else texts(F.ARGUMENTS, F.ARGUMENT, x.arguments))


REPLICAS = (F.CONSISTENCY, F.RECEIVED, F.BLOCK_FOR)

# Of each message the fields that its events have, in order.
TABLE = {
    m.Startup: lambda x: pairs(F.OPTIONS, F.OPTION_KEY, F.OPTION_VALUE, x.options),
    m.Options: lambda x: [],
    m.Query: lambda x: [(F.QUERY, x.query), *parameters(x.parameters)],
    m.Prepare: lambda x: [(F.QUERY, x.query)],
    m.Execute: lambda x: [(F.STATEMENT_ID, x.id), *parameters(x.parameters)],
    m.Batch: batch,
    m.Register: lambda x: texts(F.EVENT_TYPES, F.EVENT_TYPE, x.event_types),
    m.AuthResponse: lambda x: [(F.TOKEN, x.token)],
    m.Error: error,
    m.Unavailable: lambda x: error(x, F.CONSISTENCY, F.REQUIRED, F.ALIVE),
    m.WriteTimeout: lambda x: error(x, *REPLICAS, F.WRITE_TYPE),
    m.ReadTimeout: lambda x: error(x, *REPLICAS, F.DATA_PRESENT),
    m.ReadFailure: lambda x: error(x, *REPLICAS, F.FAILURES, F.DATA_PRESENT),
    m.FunctionFailure: lambda x: error(x, F.KEYSPACE, F.NAME, F.ARGUMENTS),
    m.WriteFailure: lambda x: error(x, *REPLICAS, F.FAILURES, F.WRITE_TYPE),
    m.AlreadyExists: lambda x: error(x, F.KEYSPACE, F.TABLE),
    m.Unprepared: lambda x: error(x, F.STATEMENT_ID),
    m.Ready: lambda x: [],
    m.Authenticate: lambda x: [(F.CLASS, x.authenticator)],
    m.Supported: supported,
    m.Void: lambda x: result(1),
    m.SetKeyspace: lambda x: result(3, (F.KEYSPACE, x.keyspace)),
    m.SchemaChange: lambda x: result(5, *change(x)),
    m.UnknownResult: lambda x: result(x.kind),
    m.Event: lambda x: [(F.EVENT_TYPE, x.type)],
    m.NodeEvent: lambda x: [(F.EVENT_TYPE, x.type), (F.CHANGE, x.change), (F.ADDRESS, (x.address, x.port))],
    m.SchemaEvent: lambda x: [(F.EVENT_TYPE, x.type), *change(x.schema)],
    m.AuthChallenge: lambda x: [(F.TOKEN, x.token)],
    m.AuthSuccess: lambda x: [(F.TOKEN, x.token)],
}


def metadata(x: m.Metadata, one_table: List[Line]) -> List[Line]:
    lines = [(F.META_FLAGS, x.flags), (F.COLUMNS, x.width)]
    lines += [(F.PAGING_STATE, x.paging_state)] if x.flags & 2 else []
    if x.flags & 4:
        assert not x.columns
        return lines
    lines += one_table if x.flags & 1 else []
    return lines + columns(x.flags, x.columns, one_table)


def one_table_of(events: List[Line]) -> List[List[Line]]:
    """Keyspaces and tables right after a count or a state: those of a metadata whose columns have one table."""
    found = []
    for at, (field, _) in enumerate(events):
        follows = (F.KEYSPACE, F.TABLE) == tuple(other for other, _ in events[at + 1 : at + 3])
        if field in (F.COLUMNS, F.PAGING_STATE, F.KEYS, F.KEY_INDEX) and follows:
            found.append(events[at + 1 : at + 3])
    return found


def lines_of(frame: m.Frame, events: List[Line]) -> List[Line]:
    """The fields of a frame. Two lines of its metadata are taken from its events where no column may have them."""
    lines = [] if frame.trace_id is None else [(F.TRACE_ID, frame.trace_id)]
    lines += texts(F.WARNINGS, F.WARNING, frame.warnings) if frame.response and frame.flags & 8 else []
    lines += [] if frame.payload is None else pairs(F.PAYLOAD_ITEMS, F.PAYLOAD_KEY, F.PAYLOAD_VALUE, frame.payload)
    x, tables = frame.message, one_table_of(events)
    if isinstance(x, m.Rows):
        one_table = tables[0] if x.metadata.flags & 5 == 1 else []
        return lines + result(2, *metadata(x.metadata, one_table), (F.ROWS, x.count))
    if isinstance(x, m.Prepared):
        first = tables[0] if x.flags & 1 else []
        second = tables[-1] if x.result.flags & 5 == 1 else []
        bound = [*first, *columns(x.flags, x.bound, first)]
        keys = [(F.KEYS, len(x.keys)), *((F.KEY_INDEX, key) for key in x.keys)]
        count = dict(events[:5])[F.COLUMNS] if F.COLUMNS in dict(events[:5]) else len(x.bound)
        assert count == len(x.bound)
        begin = [(F.STATEMENT_ID, x.id), (F.META_FLAGS, x.flags), (F.COLUMNS, count)]
        return lines + result(4, *begin, *keys, *bound, *metadata(x.result, second))
    return lines + TABLE[type(x)](x)


def line_of(event: cqlp.Event) -> Line:
    return (Tag.TYPE_NODE, event.kind) if event.tag == Tag.TYPE_NODE else (event.field, event.value)


def endings(read: Any, *words: Any) -> Tuple[list, Any]:
    """What an iterator gives, and how it ends."""
    found = []
    try:
        for one in read(*words):
            found.append(one)
    except cqlp.Refused as refused:
        return found, (cqlp.Refused, refused.at, refused.reason)
    except cqlp.Cut as cut:
        return found, (cqlp.Cut, cut.at, cut.bytes)
    return found, None


# What no stream of streams.txt has: a page and a statement without columns under a keyspace and a table, columns of tables of their own after
# a paging state of no bytes, and each code of an error.
def frame_of(opcode: int, body: bytes, flags: int = 0) -> bytes:
    return struct.pack(">BBhBi", 0x84, flags, 0, opcode, len(body)) + body


def errors() -> bytes:
    replicas = struct.pack(">Hii", 6, 1, 2)
    bodies = {
        0x1000: replicas,
        0x1100: replicas + text(b"CAS"),
        0x1200: replicas + b"\x01",
        0x1300: replicas + struct.pack(">i", 3) + b"\x00",
        0x1400: text(b"k") + text(b"f") + b"\0\x02" + text(b"int") + text(b"text"),
        0x1500: replicas + struct.pack(">i", 3) + text(b"SIMPLE"),
        0x2400: text(b"k") + text(b""),
        0x2500: text(b"\xff\x00"),
        0x2200: b"",
        0x7777: b"extra",
    }
    return b"".join(frame_of(0, struct.pack(">i", code) + text(b"why") + body) for code, body in bodies.items())


def others() -> List[Stream]:
    none = struct.pack(">iii", 2, 1, 0) + text(b"k") + text(b"t") + struct.pack(">i", 7)
    bound = struct.pack(">i", 4) + text(b"id") + struct.pack(">iii", 1, 0, 0) + text(b"k") + text(b"t")
    bound += struct.pack(">ii", 3, 0) + cell(b"state") + text(b"k2") + text(b"t2")
    specs = b"".join(map(text, (b"k1", b"t1", b"a"))) + INT + b"".join(map(text, (b"k2", b"t2", b"b"))) + INT
    own = struct.pack(">iii", 2, 2, 2) + cell(b"") + specs + struct.pack(">i", 1) + NULL * 2
    own_bound = struct.pack(">i", 4) + text(b"id") + struct.pack(">iiiHH", 0, 2, 2, 1, 0) + specs
    own_bound += struct.pack(">ii", 1, 2) + text(b"k3") + text(b"t3") + text(b"c") + INT + text(b"d") + INT
    data = {
        "own_tables": frame_of(8, own) + frame_of(8, own_bound),
        "errors": errors(),
        "no_columns": frame_of(8, none),
        "no_values": frame_of(8, bound),
        "pages": (BINDINGS / "pages.bin").read_bytes(),
        "kinds": made("kinds", "20"),
        "unknown": frame_of(8, struct.pack(">i", 9)) + frame_of(12, text(b"OTHER")),
    }
    return [Stream(name, cqlp.Limits(), stream, [], "") for name, stream in data.items()]


class Messages(unittest.TestCase):
    def test_each_frame_has_what_its_events_have(self) -> None:
        seen = set()
        for stream in [*streams(), *others()]:
            for compiled in {_pages._compiled, None}:
                with self.subTest(stream.name), mock.patch.object(_pages, "_compiled", compiled):
                    self.agrees(stream)
                    seen |= {type(frame.message) for frame in endings(cqlp.frames, stream.bytes, stream.limits)[0]}
        self.assertEqual(seen, {m.Rows, m.Prepared, *TABLE})

    def agrees(self, stream: Stream) -> None:
        frames, frames_end = endings(cqlp.frames, stream.bytes, stream.limits)
        events, events_end = endings(cqlp.events, stream.bytes, stream.limits)
        self.assertEqual(frames_end, events_end)
        ends = [at for at, event in enumerate(events) if event.tag == Tag.END]
        self.assertEqual(len(frames), len(ends))
        begin = 0
        for frame, end in zip(frames, ends):
            head, *parts, last = events[begin : end + 1]
            begin = end + 1
            header_of_event = (head.at, head.mark == cqlp.Mark.RESPONSE, head.flags, head.extra, head.opcode, head.number, last.number)
            header = (frame.at, frame.response, frame.flags, frame.stream, frame.opcode, frame.length, frame.extra)
            self.assertEqual(header, header_of_event)
            wanted = [line_of(event) for event in parts if not Tag.LEAF <= event.tag <= Tag.PART]
            self.assertEqual(lines_of(frame, wanted), wanted)
            if isinstance(frame.message, m.Rows):
                alone = stream.bytes[frame.at : frame.at + 9 + frame.length]
                self.assertEqual(exact(frame.message.rows), exact(list(cqlp.rows(alone, stream.limits))))

    def test_cut_streams_end_where_their_events_end(self) -> None:
        for stream in [*streams(), *others()]:
            whole = endings(cqlp.frames, stream.bytes, stream.limits)[0]
            for at in range(0, len(stream.bytes), 1 + len(stream.bytes) // 100):
                frames, ending = endings(cqlp.frames, stream.bytes[:at], stream.limits)
                events, wanted = endings(cqlp.events, stream.bytes[:at], stream.limits)
                ended = sum(event.tag == Tag.END for event in events)
                self.assertEqual((ending, exact(frames)), (wanted, exact(whole[:ended])), (stream.name, at))

    def test_cuts_do_not_matter(self) -> None:
        for stream in [*streams(), *others()]:
            whole = endings(cqlp.frames, stream.bytes, stream.limits)
            for piece in (1, 7):
                pieces = endings(lambda: cqlp.frames(stream.bytes, stream.limits, piece=piece))
                self.assertEqual(exact(pieces[0]), exact(whole[0]), stream.name)
                self.assertEqual(pieces[1], whole[1])

    def test_numbers_have_their_names(self) -> None:
        first, *_, unknown = [frame.message for frame in cqlp.frames(errors())]
        self.assertIs(first.code, cqlp.ErrorCode.UNAVAILABLE)
        self.assertIs(first.consistency, cqlp.Consistency.LOCAL_QUORUM)
        self.assertEqual(unknown, m.Error(0x7777, "why"))
        self.assertEqual(unknown.code.__class__, int)

    def test_bound_values(self) -> None:
        values = struct.pack(">i", 1) + b"x" + struct.pack(">i", -1) + struct.pack(">i", -2)
        body = struct.pack(">i", 1) + b"q" + struct.pack(">HBH", 99, 1, 3) + values
        (frame,) = cqlp.frames(struct.pack(">BBhBi", 4, 0, 5, 7, len(body)) + body)
        self.assertEqual(frame.message.parameters.values, (b"x", None, cqlp.UNSET))
        self.assertEqual(frame.message.parameters.consistency, 99)
        self.assertIsInstance(frame.message.parameters.values[2], cqlp.Unset)
        self.assertIs(pickle.loads(pickle.dumps(frame)).message.parameters.values[2], cqlp.UNSET)

    def test_a_frame_that_is_too_long_is_not_held(self) -> None:
        pages = (BINDINGS / "pages.bin").read_bytes()
        self.assertEqual(len(list(cqlp.frames(pages, longest=386))), 2)
        found = []
        with self.assertRaises(cqlp.FrameTooLong) as caught:
            for frame in cqlp.frames(pages, longest=385):
                found.append(frame)
        self.assertEqual((len(found), caught.exception.at, caught.exception.length), (1, 218, 386))

    def test_each_class_is_annotated(self) -> None:
        """What the annotations name is there, and each member has one."""
        for name, kind in inspect.getmembers(m, dataclasses.is_dataclass):
            if kind.__module__ == m.__name__:
                of_class = {"opcode"} if issubclass(kind, m.Message) else set()
                hints = typing.get_type_hints(kind)
                self.assertEqual(set(hints) - of_class, {member.name for member in dataclasses.fields(kind)}, name)
        self.assertEqual(m.frames.__annotations__["return"], typing.Iterator[m.Frame])

    def test_a_page_of_tuples_that_end_early(self) -> None:
        """What the documents say of memory: a cell of eight bytes has a value for each field of its type."""
        option = b"\0\x31" + struct.pack(">H", 4000) + INT * 4000
        (frame,) = cqlp.frames(page([option], [[cell(NULL)], [list_of()]]))
        self.assertEqual([len(row[0]) for row in frame.message.rows], [4000, 4000])
