"""Each message is written as it is read."""

import copy
import dataclasses
import datetime
import decimal
import ipaddress
import math
import struct
import unittest
import uuid
from typing import Any, Dict, Iterator, List, Tuple
from unittest import mock

import cqlp
from cqlp import EMPTY, UNSET, BadValue, Consistency, ErrorCode, Event, Tag, Type, _encode
from cqlp import messages as m

from .streams import streams
from .test_cells import exact
from .test_encode import COMPILED, frames, refusal, spelled
from .test_messages import endings, others

HERE = ipaddress.IPv6Address("2001:db8::1")
TRACE = uuid.UUID(int=77)
ADDRESS = Type.udt("k.address", [("street", "text"), ("number", "int"), ("where", "tuple<double, float>")])
NESTED = Type.of("map<text, frozen<list<k.address>>>", ADDRESS)
REPLICAS = (Consistency.QUORUM, 1, 2)
UTC = datetime.timezone.utc

REQUESTS: List[m.Message] = [
    m.Startup(),
    m.Startup({"CQL_VERSION": "3.0.0", "DRIVER_NAME": "ä"}),
    m.Startup(()),
    m.Options(),
    m.Query("SELECT"),
    m.Query("SELECT ..", values=[b"x", None, UNSET, b""]),
    m.Query("S", m.Parameters(Consistency.ALL, values=[], page_size=-1)),
    m.Query("S", consistency=0xFFFF, values=iter([b"1", b"2"]), names=["a", "b"], skip_metadata=True),
    m.Query("S", page_size=100, paging_state=b"s", serial_consistency=Consistency.SERIAL, timestamp=-5),
    m.Query("S", m.Parameters(flags=0x48)),
    m.Prepare("SELECT 'ä'"),
    m.Execute(b"id", values=[b"1"], timestamp=1 << 62),
    m.Execute(b""),
    m.Batch(cqlp.BatchType.COUNTER, []),
    m.Batch(9, [m.Statement("A"), m.Statement(b"id", [None, UNSET, b"x"])], Consistency.ONE, 0, 8, 7),
    m.Register(["TOPOLOGY_CHANGE", "OTHER"]),
    m.Register(()),
    m.AuthResponse(None),
    m.AuthResponse(b""),
]
RESPONSES: List[m.Message] = [
    m.Error(ErrorCode.INVALID, "no"),
    m.Error(-5, ""),
    m.Unavailable(ErrorCode.UNAVAILABLE, "few", *REPLICAS),
    m.WriteTimeout(ErrorCode.WRITE_TIMEOUT, "late", *REPLICAS, "CAS"),
    m.ReadTimeout(ErrorCode.READ_TIMEOUT, "late", *REPLICAS, 255),
    m.ReadFailure(ErrorCode.READ_FAILURE, "fails", *REPLICAS, -1, 0),
    m.FunctionFailure(ErrorCode.FUNCTION_FAILURE, "fails", "k", "f", ("int", "text")),
    m.WriteFailure(ErrorCode.WRITE_FAILURE, "fails", *REPLICAS, 3, "SIMPLE"),
    m.AlreadyExists(ErrorCode.ALREADY_EXISTS, "is there", "k", ""),
    m.Unprepared(ErrorCode.UNPREPARED, "unknown", b"id"),
    m.Ready(),
    m.Authenticate("a.Class"),
    m.Supported({"COMPRESSION": [], "CQL_VERSION": ["3.0.0", "3.4.4"]}),
    m.Supported(()),
    m.Void(),
    m.SetKeyspace("k"),
    m.SchemaChange("CREATED", "KEYSPACE", "k"),
    m.SchemaChange("UPDATED", "TABLE", "k", "t"),
    m.SchemaChange("UPDATED", "TYPE", "k", "t"),
    m.SchemaChange("DROPPED", "FUNCTION", "k", "f", ("int",)),
    m.SchemaChange("DROPPED", "AGGREGATE", "k", "f", ()),
    m.SchemaChange("CREATED", "ROLE"),
    m.UnknownResult(9),
    m.Event("OTHER"),
    m.NodeEvent("STATUS_CHANGE", "UP", HERE, 9042),
    m.NodeEvent("TOPOLOGY_CHANGE", "NEW_NODE", ipaddress.IPv4Address("10.0.0.1"), -1),
    m.SchemaEvent("SCHEMA_CHANGE", m.SchemaChange("CREATED", "TABLE", "k", "t")),
    m.AuthChallenge(b"c"),
    m.AuthSuccess(None),
    m.Prepared.of(b"id"),
    m.Prepared.of(b"id", [("a", "int")], [("b", NESTED), ("c", "'a.b'")], keys=[0], keyspace="k", table="t"),
    m.Prepared(b"id", 0, (), (cqlp.Column("k", "t", "a", ADDRESS),), m.Metadata(6, 2, b"s", ())),
    m.Rows.of([], []),
    m.Rows.of([("a", "int")], [], keyspace="k", table="t", paging_state=b"next"),
    m.Rows.of([cqlp.Column("k", "t", "a", Type.of("int")), cqlp.Column("k", "u", "b", ADDRESS)], [(1, None)]),
    m.Rows(m.Metadata(4, 2, None, ()), 2, [(b"x", None), (b"", b"yz")]),
    m.Rows(m.Metadata(2, 0, None, ()), 5, []),
]

# Of each type values that are read as they are written.
VALUES: Dict[Any, List[Any]] = {
    "ascii": ["", "a\x7f"],
    "bigint": [0, (1 << 63) - 1, -(1 << 63)],
    "blob": [b"", b"\0\xff"],
    "boolean": [True, False],
    "counter": [5, -5],
    "decimal": [decimal.Decimal(each) for each in ("0", "1.50", "-3E+5", "0.00", "-12345678901234567890.123", "1E-2147483647", "1E+2147483648")],
    "double": [0.0, -0.0, 1.5, math.inf, 5e-324],
    "float": [0.5, -math.inf],
    "int": [-(1 << 31), (1 << 31) - 1],
    "timestamp": [
        datetime.datetime(1969, 12, 31, 23, 59, 59, 999000, tzinfo=UTC),
        datetime.datetime(1, 1, 1, tzinfo=UTC),
        datetime.datetime(9999, 12, 31, 23, 59, 59, 999000, tzinfo=UTC),
        cqlp.Milliseconds((1 << 63) - 1),
    ],
    "uuid": [TRACE],
    "text": ["", "ä\0\U0001f600"],
    "varint": [0, 127, 128, -128, -129, 1 << 200, -(1 << 200)],
    "timeuuid": [uuid.UUID("00000000-0000-1000-8000-000000000000")],
    "inet": [HERE, ipaddress.IPv4Address("10.0.0.1")],
    "date": [datetime.date(1, 1, 1), datetime.date(1970, 1, 1), datetime.date(9999, 12, 31), cqlp.Days(-(1 << 31)), cqlp.Days((1 << 31) - 1)],
    "time": [cqlp.Nanoseconds(0), cqlp.Nanoseconds(86_399_999_999_999)],
    "smallint": [-32768, 32767],
    "tinyint": [-128, 127],
    "'a.Class'": [b"", b"x"],
    "list<int>": [[], [1, None, 2]],
    "set<text>": [set(), {"a", "b"}],
    "map<int, text>": [{}, {1: "a", 2: None}],
    "tuple<int, text>": [(1, "a"), (None, None)],
    "list<tuple<int>>": [[(1,), None]],
    "set<list<int>>": [{(1, 2), (3,)}],
    "set<map<int, set<int>>>": [{((1, frozenset((2,))),)}],
    "map<tuple<int, text>, list<blob>>": [{(1, "a"): [b"x"]}],
    NESTED: [{"home": [{"street": "s", "number": 1, "where": (1.5, None)}, {"street": None, "number": None, "where": None}]}],
    ADDRESS: [{"street": "", "number": None, "where": (None, 2.0)}],
    Type.udt("k.keys", [("by", Type.of("set<k.address>", ADDRESS))]): [{"by": {(("street", "s"), ("number", 2), ("where", None))}}],
}


def bad(*given: Any, **named: Any) -> str:
    """What is said of a message that is not written."""
    try:
        cqlp.encode(*given, **named)
    except BadValue as error:
        return str(error)
    raise AssertionError("it is written: %r" % (given,))


def spellings(frame: m.Frame, raw: bytes) -> Iterator[bytes]:
    """The frame without the bytes after its last field, and as test_encode knows that it is spelled."""
    yield raw[:5] + struct.pack(">i", frame.length - frame.extra) + raw[9 : len(raw) - frame.extra]
    for each in frames():
        if each.bytes == raw and refusal(each) is None:
            yield spelled(each)


class Messages(unittest.TestCase):
    def test_each_message_is_read_as_it_was_written(self) -> None:
        for message in REQUESTS + RESPONSES:
            for compiled in COMPILED:
                with self.subTest(message), mock.patch.object(_encode, "_compiled", compiled):
                    data = cqlp.encode(message, 258)
                    (frame,) = cqlp.frames(data)
                    self.assertEqual(frame.message, message)
                    self.assertEqual((frame.stream, frame.flags, frame.extra, frame.response), (258, 0, 0, message in RESPONSES))
                    self.assertEqual((frame.opcode, frame.opcode), (message.opcode, data[4]))
                    self.assertEqual(cqlp.encode(frame), data)
        written = {type(message) for message in REQUESTS + RESPONSES}
        classes = {each for each in vars(m).values() if isinstance(each, type) and issubclass(each, m.Message)}
        self.assertEqual(written, classes - {m.Message})

    def test_parts_of_a_frame(self) -> None:
        parts = {"warnings": ["a", "ä"], "trace_id": TRACE, "payload": {"k": b"v", "n": None}}
        for message in RESPONSES:
            (frame,) = cqlp.frames(cqlp.encode(message, -7, flags=0xF0, **parts))
            self.assertEqual((frame.stream, frame.flags, frame.warnings, frame.trace_id), (-7, 0xFE, ("a", "ä"), TRACE))
            self.assertEqual((frame.payload, frame.message), ((("k", b"v"), ("n", None)), message))
        for message in REQUESTS:
            (frame,) = cqlp.frames(cqlp.encode(message, flags=0x0A, payload=[("k", b"v"), ("k", b"")]))
            self.assertEqual((frame.flags, frame.payload, frame.message), (0x0E, (("k", b"v"), ("k", b"")), message))
            self.assertIn("trace_id", bad(message, trace_id=TRACE))
            self.assertIn("warnings", bad(message, warnings=["a"]))
        self.assertEqual(cqlp.encode(m.Event("OTHER"))[2:4], b"\xff\xff")
        self.assertEqual(cqlp.encode(m.Ready())[2:4], b"\0\0")

    def test_streams_are_written_as_they_came(self) -> None:
        same = others_count = 0
        for stream in [*streams(), *others()]:
            found, _ = endings(cqlp.frames, stream.bytes, stream.limits)
            for frame in found:
                raw = stream.bytes[frame.at : frame.at + 9 + frame.length]
                if not stream.limits.types and isinstance(frame.message, m.Rows) and frame.message.metadata.columns:
                    self.assertIn("an int is wanted", bad(frame))  # the cells were not read by their types
                    continue
                data = cqlp.encode(frame)
                (again,) = cqlp.frames(data, stream.limits)
                expected = dataclasses.replace(frame, at=0, length=len(data) - 9, extra=0)
                self.assertEqual(exact(vars(again)), exact(vars(expected)), stream.name)
                same += data == raw
                if data != raw and stream.name not in OTHER_SPELLING:
                    self.assertIn(data, set(spellings(frame, raw)), stream.name)
                    others_count += 1
        self.assertGreaterEqual(same, 92)
        self.assertGreaterEqual(others_count, 6)

    def test_a_frame_that_was_changed(self) -> None:
        (frame,) = cqlp.frames(cqlp.encode(m.Query("SELECT 1"), 5, payload={"k": b"v"}))
        changed = dataclasses.replace(frame, stream=6, message=m.Ready(), warnings=("w",))
        self.assertEqual(cqlp.encode(changed), cqlp.encode(m.Ready(), 6, warnings=["w"], payload={"k": b"v"}))
        self.assertIn("payload: None: the flag 04 is set", bad(dataclasses.replace(frame, payload=None)))

    def test_flags_of_parts_are_set(self) -> None:
        query = m.Query("q", values=[b"x"], names=["n"], page_size=1, paging_state=b"", serial_consistency=8, timestamp=0, skip_metadata=True)
        self.assertEqual(query.parameters.flags, 0x7F)
        self.assertEqual(query, m.Query("q", query.parameters))
        self.assertEqual(m.Parameters(flags=2).flags, 2)
        self.assertEqual(m.Batch(0, [], timestamp=1, serial_consistency=9).flags, 0x30)
        self.assertEqual(query.parameters.consistency, Consistency.LOCAL_ONE)
        for wrong in (
            lambda: m.Query("q", m.Parameters(), page_size=1),
            lambda: m.Query("q", values=b"abc"),
            lambda: m.Query("q", values=[], names="ab"),
            lambda: m.Register("STATUS_CHANGE"),
            lambda: m.Rows.of([("a", "int")], ["x"]),
        ):
            self.assertRaises(TypeError, wrong)

    def test_events_are_written_as_before(self) -> None:
        events = list(cqlp.events(cqlp.encode(m.Prepare("x"), 3)))
        self.assertEqual(cqlp.encode(events), cqlp.encode(iter(events[:-1])))
        self.assertRaises(cqlp.BadEvent, cqlp.encode, events[1:])
        for given in (5, [5], None, "text"):
            self.assertRaises(TypeError, cqlp.encode, given)
        self.assertIn("one of the classes of cqlp.messages", bad(m.Message()))


# Varints and decimals longer than they have to be; columns that are not there under a keyspace and a table; udts that end early.
OTHER_SPELLING = ("kinds", "shown_15", "no_columns", "no_values", "user_defined_type_with_fewer_fields")


class Values(unittest.TestCase):
    def test_each_value_is_read_as_it_was_written(self) -> None:
        for type, values in VALUES.items():
            page = m.Rows.of([("a", type), ("b", type)], [(value, None) for value in values] + [(None, None)])
            (frame,) = cqlp.frames(cqlp.encode(page))
            self.assertEqual(exact(frame.message.rows), exact(page.rows), type)
            self.assertEqual(frame.message, page)
            for row, value in enumerate(values):
                events = [event._replace(at=0) for event in cqlp.cell_events(type, value, row, 1)]
                self.assertEqual(list(cqlp.rows(one_cell(Type.of(type), cqlp.bind(type, value)))), [(value,)])
                self.assertEqual({event[3:5] for event in events}, {(row, 1)})
        self.assertEqual({Type.of(type).kind for type in VALUES}, set(cqlp.Kind) - {cqlp.Kind.RAW})

    def test_events_of_cells_are_those_that_a_decoder_gives(self) -> None:
        for type, values in VALUES.items():
            for value in [*values, None]:
                found = list(cqlp.events(cqlp.encode(m.Rows.of([("a", type)], [(value,)]))))
                cells = [event for event in found if Tag.LEAF <= event.tag <= Tag.LEAVE]
                given = cqlp.cell_events(type, value)
                self.assertEqual([str(event._replace(at=0)) for event in cells], [str(event) for event in given])

    def test_no_bytes(self) -> None:
        for type in ("int", "uuid", "decimal", "boolean", "inet"):
            self.assertEqual(cqlp.bind(type, EMPTY), b"")
            (frame,) = cqlp.frames(cqlp.encode(m.Rows.of([("a", type)], [(EMPTY,)])))
            self.assertEqual(frame.message.rows, [(EMPTY,)])

    def test_bound_values(self) -> None:
        self.assertEqual(cqlp.bind("int", 5), b"\0\0\0\5")
        self.assertEqual(cqlp.bind("list<int>", [1, None]), struct.pack(">iiii", 2, 4, 1, -1))
        self.assertEqual((cqlp.bind("int", None), cqlp.bind("text", "")), (None, b""))
        self.assertIs(cqlp.bind("int", UNSET), UNSET)
        prepared = m.Prepared.of(b"id", [("a", "int"), ("b", "text"), ("c", "text")])
        self.assertEqual(prepared.bind([1, "x", UNSET]), (b"\0\0\0\1", b"x", UNSET))
        for wrong, place in (((1,), "the value"), ((1, 2, None), "values[1]")):
            with self.assertRaises(BadValue) as caught:
                prepared.bind(wrong)
            self.assertTrue(str(caught.exception).startswith(place), caught.exception)

    def test_values_of_other_classes(self) -> None:
        same = (
            ("bigint", True, 1),
            ("float", 5, 5.0),
            ("blob", bytearray(b"x"), b"x"),
            ("blob", memoryview(b"x"), b"x"),
            ("time", datetime.time(1, 2, 3, 4), cqlp.Nanoseconds(3_723_000_004_000)),
            ("timestamp", datetime.datetime(2000, 1, 1, 1, 0, 0, 1999, datetime.timezone(datetime.timedelta(hours=1))), TWO_THOUSAND),
            ("list<int>", (1, 2), [1, 2]),
            ("set<int>", [1, 2], {1, 2}),
            ("map<int, int>", [(1, 2)], {1: 2}),
            ("tuple<int, int>", [1, 2], (1, 2)),
            (ADDRESS, {"number": 5}, {"street": None, "number": 5, "where": None}),
        )
        for type, given, wanted in same:
            (frame,) = cqlp.frames(cqlp.encode(m.Rows.of([("a", type)], [(given,)])))
            self.assertEqual(exact(frame.message.rows), exact([(wanted,)]))


TWO_THOUSAND = datetime.datetime(2000, 1, 1, 0, 0, 0, 1000, tzinfo=UTC)


def one_cell(type: Type, content: Any) -> bytes:
    """A page of one cell with this content."""
    empty = cqlp.encode(m.Rows.of([("a", type)], [(None,)]))
    data = empty[:-4] + struct.pack(">i", len(content)) + content
    return data[:5] + struct.pack(">i", len(data) - 9) + data[9:]


class Errors(unittest.TestCase):
    def test_an_error_names_the_message_the_field_and_the_value(self) -> None:
        rows = m.Rows.of([("id", "int"), ("tags", "map<int, list<text>>")], [(1, {1: ["a"]}), (2, {1: ["a", 5]})])
        udt = m.Rows.of([("a", ADDRESS)], [({"street": 5},)])
        cases = (
            (m.Query(5), "Query.query: 5: a str is wanted"),
            (m.Query("\ud800"), "Query.query: '\\ud800': no UTF-8 has a surrogate"),
            (m.Query("q", consistency=1 << 16), "Query.parameters.consistency: 65536: a number from 0 to 65535 is wanted"),
            (m.Query("q", consistency="ONE"), "Query.parameters.consistency: 'ONE': an int is wanted"),
            (m.Query("q", values=[b"", 5]), "Query.parameters.values[1]: 5: bytes are wanted"),
            (m.Query("q", values=[b""], names=[]), "Query.parameters.names: (): 1 values are wanted"),
            (m.Query("q", names=["a"]), "Query.parameters.names: ('a',): there are no values"),
            (m.Query("q", m.Parameters(flags=1)), "Query.parameters.values: None: a tuple or a list is wanted"),
            (m.Query("q", m.Parameters(flags=4)), "Query.parameters.page_size: None: an int is wanted"),
            (m.Query("q", m.Parameters(flags=256)), "Query.parameters.flags: 256: a number from 0 to 255 is wanted"),
            (m.Query("q", 5), "Query.parameters: 5: Parameters are wanted"),
            (m.Query("q", values=[b""] * 65536), "Query.parameters.values: 65536: a number from 0 to 65535 is wanted"),
            (m.Execute(None), "Execute.id: None: bytes are wanted"),
            (m.Execute(b"x" * 65536), "Execute.id: b'xxxxxxxxxxx...xxxxxxxxxxxxx': it has 65536 bytes, more than 65535"),
            (m.Batch(0, [m.Statement(5)]), "Batch.statements[0].statement: 5: bytes are wanted"),
            (m.Batch(0, ["a"]), "Batch.statements[0]: 'a': a Statement is wanted"),
            (m.Batch(0, [m.Statement("a", [5])]), "Batch.statements[0].values[0]: 5: bytes are wanted"),
            (m.Batch(300, []), "Batch.type: 300: a number from 0 to 255 is wanted"),
            (m.Startup({"a": 1}), "Startup.options[0]: 1: a str is wanted"),
            (m.Supported({"a": [1]}), "Supported.options[0][0]: 1: a str is wanted"),
            (m.Register([1]), "Register.event_types[0]: 1: a str is wanted"),
            (m.SetKeyspace("x" * 65536), "SetKeyspace.keyspace: 'xxxxxxxxxxxx...xxxxxxxxxxxxx': it has 65536 bytes, more than 65535"),
            (m.Error(ErrorCode.UNAVAILABLE, "x"), "Error.code: <ErrorCode.UNAVAILABLE: 4096>: an error of this code is of the class Unavailable"),
            (m.Unavailable(0, "x", *REPLICAS), "Unavailable.code: 0: an error of this code is of the class Error"),
            (m.Unavailable(0x1000, "x", 1, 2, "3"), "Unavailable.alive: '3': an int is wanted"),
            (m.Event("STATUS_CHANGE"), "Event.type: 'STATUS_CHANGE': an event of this type is of the class NodeEvent"),
            (m.NodeEvent("STATUS_CHANGE", "UP", "::1", 1), "NodeEvent.address: '::1': an IPv4Address or IPv6Address is wanted"),
            (m.NodeEvent("STATUS_CHANGE", "UP", HERE, 1 << 31), "NodeEvent.port: 2147483648: a number from -2147483648 to 2147483647 is wanted"),
            (m.SchemaEvent("SCHEMA_CHANGE", m.SchemaChange("A", "TABLE", "k")), "SchemaEvent.schema.name: None: a str is wanted"),
            (m.SchemaChange("A", "KEYSPACE", "k", "t"), "SchemaChange.name: 't': a change of KEYSPACE has no name"),
            (m.SchemaChange("A", "FUNCTION", "k", "t"), "SchemaChange.arguments: None: a tuple or a list is wanted"),
            (m.UnknownResult(2), "UnknownResult.kind: 2: a result of this kind has a class of its own"),
            (rows, "Rows.rows[1]['tags'][0][1]: 5: a str is wanted"),
            (udt, "Rows.rows[0]['a']['street']: 5: a str is wanted"),
            (m.Rows.of([("a", "int")], [(1, 2)]), "Rows.rows[0]: (1, 2): 1 values are wanted"),
            (dataclasses.replace(rows, count=3), "Rows.count: 3: there are 2 rows"),
            (m.Rows(m.Metadata(0, 2, None, ()), 0, []), "Rows.metadata.columns: (): as many columns as `width` are wanted, or none with the flag 04"),
            (m.Rows.of([("a", Type.udt("u", []))], []), "Rows.metadata.columns[0].type: Type.of('u'): a udt has a name `keyspace.name`, and a name for each field"),
            (m.Rows.of([("a", Type(0x77))], [(1,)]), "Rows.metadata.columns[0].type: Type.of('119'): no such type is written"),
            (m.Rows.of([("a", Type(cqlp.Kind.LIST))], []), "Rows.metadata.columns[0].type: Type.of('list'): no such type is written"),
            (m.Rows.of([("a", "raw")], []), "Rows.metadata.columns[0].type: Type.of('raw'): no such type is written"),
            (m.Prepared.of(b"", [("a", "int"), (5, "int")]), "Prepared.bound[1].name: 5: a str is wanted"),
        )
        for message, wanted in cases:
            self.assertEqual(bad(message), wanted)
        table = tuple(cqlp.Column("k", name, name, Type.of("int")) for name in "ab")
        self.assertIn("Rows.metadata.columns[1]: ", bad(m.Rows(m.Metadata(1, 2, None, table), 0, [])))
        for named, wanted in (({"stream": 1 << 15}, "stream: 32768: "), ({"flags": 256}, "flags: 256: "), ({"warnings": [5]}, "warnings[0]: 5: ")):
            self.assertTrue(bad(m.Ready(), **named).startswith(wanted), named)
        self.assertEqual(bad(m.Ready(), flags=2), "trace_id: None: a uuid.UUID is wanted")
        self.assertEqual(bad(m.Ready(), flags=1), "flags: 1: the flag 01 says that the body is compressed")
        self.assertEqual(bad(m.Ready(), payload={"k": 5}), "payload[0]: 5: bytes are wanted")

    def test_a_member_of_another_class(self) -> None:
        """Each member of each message in turn is any of these: it is refused by name, or read as it was written."""
        refused = 0
        for message in REQUESTS + RESPONSES:
            for changed in with_each_member_changed(message):
                try:
                    data = cqlp.encode(changed)
                except BadValue as error:
                    self.assertEqual(error.field.split(".")[0], type(message).__name__)
                    refused += 1
                else:
                    (frame,) = cqlp.frames(data)
                    self.assertEqual(cqlp.encode(frame), data)
                    if not isinstance(changed, m.Rows):  # a udt without fields is read with nulls
                        self.assertEqual(in_tuples(frame.message), in_tuples(changed))
        self.assertGreater(refused, 4000)

    def test_values_that_no_cell_has(self) -> None:
        naive = datetime.datetime(2000, 1, 1)
        cases: Tuple[Tuple[Any, Any], ...] = (
            *(("int", each) for each in (1 << 31, 1.0, "1", b"\0\0\0\1", decimal.Decimal(1))),
            *(("tinyint", each) for each in (128, -129)),
            ("bigint", 1 << 63),
            *(("ascii", each) for each in ("ä", 5)),
            *(("text", each) for each in (b"a", "\udfff")),
            *(("blob", each) for each in ("a", 5, [1])),
            *(("boolean", each) for each in (1, "true")),
            *(("decimal", each) for each in (1, 1.5, decimal.Decimal("NaN"), decimal.Decimal("Infinity"), decimal.Decimal("1E-2147483648"))),
            *(("float", each) for each in (1e39, "1", None.__class__)),
            ("double", 1 << 1024),
            *(("timestamp", each) for each in (0, naive, datetime.date(2000, 1, 1), cqlp.Milliseconds(1 << 63))),
            *(("date", each) for each in (0, naive, cqlp.Days(1 << 31))),
            *(("time", each) for each in (-1, 86_400_000_000_000, datetime.time(tzinfo=UTC), "1")),
            *(("uuid", each) for each in (str(TRACE), TRACE.bytes)),
            ("inet", "::1"),
            *(("list<int>", each) for each in ({1}, "12", b"12", 5, {1: 2}, [[1]], EMPTY.__class__)),
            *(("set<int>", each) for each in ({1: 2}, "12", {"a"})),
            *(("map<int, int>", each) for each in ([1], {1}, {"a": 1}, {1: "a"}, "ab", ["ab"])),
            *(("tuple<int, int>", each) for each in ((1,), (1, 2, 3), {1: 2}, "ab")),
            *((ADDRESS, each) for each in ({"": 1}, {5: 1}, [1], (1, 2, 3), {"number": "a"})),
        )
        for type, value in cases:
            self.assertRaises(BadValue, cqlp.bind, type, value)
            self.assertRaises(BadValue, cqlp.cell_events, type, value)
            self.assertTrue(bad(m.Rows.of([("a", type)], [(value,)])).startswith("Rows.rows[0]['a']"), (type, value))


JUNK = (None, 5, -1, 1 << 40, "x", b"x", 1.5, (), [5], {"a": 1}, object(), UNSET, "STATUS_CHANGE", "TABLE", 0x1000, ((),), ((1,),), (("a", "b"),))


def with_each_member_changed(message: Any) -> Iterator[Any]:
    for member in dataclasses.fields(message):
        for value in [*JUNK, *changed_parts(getattr(message, member.name))]:
            changed = copy.copy(message)
            object.__setattr__(changed, member.name, value)
            yield changed


def changed_parts(value: Any) -> Iterator[Any]:
    """What becomes of a member where something in it is changed."""
    if dataclasses.is_dataclass(value):
        yield from with_each_member_changed(value)
    elif isinstance(value, cqlp.Column):
        yield from (value._replace(**{name: junk}) for name in value._fields for junk in JUNK)
    elif type(value) in (tuple, list):
        for at, item in enumerate(value):
            for junk in [*JUNK, *changed_parts(item)]:
                yield type(value)([*value[:at], junk, *value[at + 1 :]])


def in_tuples(value: Any) -> Any:
    """A message with tuples in place of lists."""
    if dataclasses.is_dataclass(value):
        return [(member.name, in_tuples(getattr(value, member.name))) for member in dataclasses.fields(value)]
    if isinstance(value, (list, tuple)) and not isinstance(value, cqlp.Column):
        return tuple(map(in_tuples, value))
    return value


class Types(unittest.TestCase):
    def test_a_type_has_the_text_that_it_is_read_from(self) -> None:
        for type in map(Type.of, VALUES):
            self.assertEqual(Type.of(str(type), ADDRESS, type), type)
            self.assertIs(Type.of(type), type)
        same = (
            ("text", "varchar"),
            (" MAP< text ,frozen <list<int>> > ", "map<varchar, list<int>>"),
            ("frozen<set<frozen<tuple<int>>>>", "set<tuple<int>>"),
            ("list<'it''s'>", "list<'it''s'>"),
            ("raw", "raw"),
            ("tuple", "tuple"),
        )
        for text, wanted in same:
            self.assertEqual(str(Type.of(text)), wanted)
        self.assertEqual(repr(Type.of("list<text>")), "Type.of('list<varchar>')")
        self.assertEqual(Type.of("list<'it''s'>").inner[0].name, "it's")
        nested = Type.udt("k.outer", [("a", "list<k.address>")], ADDRESS)
        self.assertEqual(nested.inner[0].inner[0], ADDRESS)

    def test_texts_of_no_type(self) -> None:
        texts = "", "int<int>", "list", "list<>", "map<int>", "nope", "list<int", "list<int>>", "list<int>int", "'a", "list<int,>", "tuple<>", "udt", "custom"
        for text in (*texts, "<int>", ",", "frozen", "frozen<int, int>", "list int", "k.address", "'a''"):
            self.assertRaises(ValueError, Type.of, text)
        for given in (5, None, b"int"):
            self.assertRaises(TypeError, Type.of, given)


class Reprs(unittest.TestCase):
    def test_they_are_short(self) -> None:
        self.assertEqual(repr(Event(tag=Tag.TEXT, content=b"x")), "Event(content=b'x', tag=<Tag.TEXT: 8>)")
        page = cqlp.encode(m.Rows.of([("a", "int"), ("b", "text")], [(1, "x" * 99)] * 999))
        (batch,), (columns,), (frame,) = cqlp.arrays(page), cqlp.columns(page), cqlp.frames(page)
        self.assertEqual(repr(batch), "<ArrayBatch of 999 rows from row 0 on: a int, b varchar>")
        self.assertEqual(repr(batch["b"]), "<ColumnArray of 999 cells: b varchar>")
        self.assertEqual(repr(columns), "<PageColumns of 999 rows: a int, b varchar>")
        self.assertEqual(repr(columns["a"]), "<Series of 999 values: a int>")
        for each in (frame, frame.message, list(cqlp.events(page))[-2]):
            self.assertLess(len(repr(each)), 1000)
