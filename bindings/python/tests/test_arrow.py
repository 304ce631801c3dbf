"""The C data interface of Apache Arrow: a consumer takes batches as the interface says, and finds the values that `rows` gives."""

import ctypes
import decimal
import gc
import os
import struct
import sys
import threading
import tracemalloc
import unittest
from ctypes import POINTER, c_char_p, c_int64, c_void_p
from random import Random
from typing import Any, Dict, List, Optional, Tuple
from unittest import mock

import cqlp
from cqlp import Kind, Type, _arrow, messages

from .streams import BINDINGS
from .test_message_events import VALUES
from .test_pages import cell
from .test_pages import page as made_page

try:
    _arrow.capsules()
    BUILT = True
except ImportError:
    BUILT = False

EXACT = decimal.Context(prec=decimal.MAX_PREC, Emin=decimal.MIN_EMIN, Emax=decimal.MAX_EMAX)
CHANGES = int(os.environ.get("CQLP_CHANGES", 100_000)) // 100
PAGES = (BINDINGS / "pages.bin").read_bytes()


class Schema(ctypes.Structure):
    pass


Schema._fields_ = [
    ("format", c_char_p),
    ("name", c_char_p),
    ("metadata", c_void_p),
    ("flags", c_int64),
    ("n_children", c_int64),
    ("children", POINTER(POINTER(Schema))),
    ("dictionary", c_void_p),
    ("release", c_void_p),
    ("private_data", c_void_p),
]


class Array(ctypes.Structure):
    pass


Array._fields_ = [
    ("length", c_int64),
    ("null_count", c_int64),
    ("offset", c_int64),
    ("n_buffers", c_int64),
    ("n_children", c_int64),
    ("buffers", POINTER(c_void_p)),
    ("children", POINTER(POINTER(Array))),
    ("dictionary", c_void_p),
    ("release", c_void_p),
    ("private_data", c_void_p),
]


class Stream(ctypes.Structure):
    _fields_ = [("get_schema", c_void_p), ("get_next", c_void_p), ("get_last_error", c_void_p), ("release", c_void_p), ("private_data", c_void_p)]


WORDS = {Schema: b"arrow_schema", Array: b"arrow_array", Stream: b"arrow_array_stream"}
RELEASE = ctypes.CFUNCTYPE(None, c_void_p)  # calls without the lock of the interpreter
FILL = ctypes.CFUNCTYPE(ctypes.c_int, c_void_p, c_void_p)
SAY = ctypes.CFUNCTYPE(c_char_p, c_void_p)
GET = ctypes.pythonapi.PyCapsule_GetPointer
GET.restype, GET.argtypes = c_void_p, [ctypes.py_object, c_char_p]


def moved(kind: Any, capsule: Any) -> Any:
    """What is in a capsule, as a consumer takes it: its bytes are copied, and the capsule has no more to release."""
    there = kind.from_address(GET(capsule, WORDS[kind]))
    assert there.release
    taken = kind.from_buffer_copy(bytes(there))
    there.release = None
    return taken


def release(taken: Any) -> None:
    RELEASE(taken.release)(ctypes.addressof(taken))
    assert not taken.release


def metadata(schema: Schema) -> Dict[bytes, bytes]:
    if not schema.metadata:
        return {}
    place, words = schema.metadata + 4, []
    for _ in range(2 * ctypes.c_int32.from_address(schema.metadata).value):
        length = ctypes.c_int32.from_address(place).value
        words.append(ctypes.string_at(place + 4, length))
        place += 4 + length
    return dict(zip(words[::2], words[1::2]))


NUMBERS = {b"c": "b", b"s": "h", b"i": "i", b"l": "q", b"f": "f", b"g": "d", b"tsm:UTC": "q", b"tdD": "i", b"ttn": "q", b"w:16": "16s"}


def bit(place: int, at: int) -> bool:
    return bool(ctypes.c_uint8.from_address(place + at // 8).value >> at % 8 & 1)


def values(schema: Schema, array: Array) -> List[Any]:
    """The values of an array, by the layout that its format has."""
    form, count = schema.format, array.length
    valid = [not array.buffers[0] or bit(array.buffers[0], at) for at in range(count)]
    assert array.null_count == count - sum(valid) and array.offset == 0 and not array.dictionary
    if form == b"+s":
        assert (array.n_buffers, array.n_children) == (1, schema.n_children)
        columns = [values(schema.children[at][0], array.children[at][0]) for at in range(array.n_children)]
        assert all(len(column) == count for column in columns)
        rows = list(zip(*columns)) if columns else [()] * count
        return [row if there else None for row, there in zip(rows, valid)]
    if form in (b"+L", b"+m"):
        assert (array.n_buffers, array.n_children, schema.n_children) == (2, 1, 1)
        size = c_int64 if form == b"+L" else ctypes.c_int32
        ends = (size * (count + 1)).from_address(array.buffers[1])
        assert form == b"+L" or not schema.children[0][0].flags & 2
        items = values(schema.children[0][0], array.children[0][0])
        found: List[Any] = [items[one:two] for one, two in zip(ends, ends[1:])]
        return [one if there else None for one, there in zip(found, valid)]
    if form in (b"U", b"Z"):
        assert array.n_buffers == 3
        ends = (c_int64 * (count + 1)).from_address(array.buffers[1])
        found = [ctypes.string_at(array.buffers[2] + one, two - one) for one, two in zip(ends, ends[1:])]
        found = [one.decode() if form == b"U" else one for one in found]
    elif form.startswith(b"d:"):
        digits, scale, *width = map(int, form[2:].split(b","))
        size, exact = (width or [128])[0] // 8, decimal.Context(prec=digits)
        assert (digits, size) in ((38, 16), (76, 32))
        bits = ctypes.string_at(array.buffers[1], size * count)
        numbers = [int.from_bytes(bits[size * at : size * at + size], "little", signed=True) for at in range(count)]
        assert all(abs(number) < 10**digits for number in numbers)
        found = [decimal.Decimal(number).scaleb(-scale, exact) for number in numbers]
    elif form == b"b":
        found = [bit(array.buffers[1], at) for at in range(count)]
    else:
        items = struct.Struct("=" + NUMBERS[form])
        found = [one for (one,) in items.iter_unpack(ctypes.string_at(array.buffers[1], items.size * count))]
    return [one if there else None for one, there in zip(found, valid)]


def taken(made: Any) -> Tuple[Any, List[Any]]:
    """What a consumer finds in something with an `__arrow_c_array__`: its schema's format, names, words and flags; its values."""
    schema, array = (moved(kind, capsule) for kind, capsule in zip((Schema, Array), made.__arrow_c_array__()))
    found = said(schema), values(schema, array)
    release(array)
    release(schema)
    return found


def said(schema: Schema) -> Any:
    inner = [said(schema.children[at][0]) for at in range(schema.n_children)]
    return schema.format, schema.name, schema.flags, metadata(schema), inner


def in_arrow(kind: int, value: Any, decimals: bytes = b"U") -> Any:
    """A value as its array has it, a decimal or a varint as in this format."""
    numbers = (Kind.VARINT, Kind.DECIMAL)
    if value is None or (value is cqlp.EMPTY and (kind != Kind.INET and (kind not in numbers or decimals != b"Z"))):
        return None
    if kind in numbers and decimals != b"Z":
        return str(decimal.Decimal(value)) if decimals == b"U" else value
    (event,) = cqlp.cell_events(Type(Kind(kind)), value)
    if event.tag == cqlp.Tag.EMPTY:
        return "" if kind in (Kind.ASCII, Kind.VARCHAR) else b""
    if kind in (Kind.UUID, Kind.TIMEUUID, Kind.INET):
        return event.octets
    if kind in (Kind.FLOAT, Kind.DOUBLE, Kind.BOOLEAN, Kind.ASCII, Kind.VARCHAR):
        return event.value
    if kind == Kind.DECIMAL:
        return struct.pack(">i", event.extra) + event.content
    if kind == Kind.DATE:
        return event.number - (1 << 31)
    return event.content if kind in (Kind.BLOB, Kind.CUSTOM, Kind.VARINT) else event.number


def in_items(type: Type, value: Any) -> Any:
    """A value with items as its array has it."""
    if value is None or value is cqlp.EMPTY:
        return None
    if type.kind in (Kind.LIST, Kind.SET):
        return [in_items(type.inner[0], item) for item in value]
    if type.kind == Kind.MAP:
        pairs = value.items() if isinstance(value, dict) else value
        return [(in_items(type.inner[0], key), in_items(type.inner[1], item)) for key, item in pairs]
    if type.kind == Kind.TUPLE:
        return tuple(map(in_items, type.inner, value))
    if type.kind == Kind.UDT:
        fields = dict(value)
        return tuple(in_items(inner, fields.get(name)) for inner, name in zip(type.inner, type.names))
    return in_arrow(type.kind, value)


@unittest.skipUnless(BUILT, "the module in C was not built")
class Arrow(unittest.TestCase):
    def test_each_type(self) -> None:
        for text, some in VALUES.items():
            type = Type.of(text)
            if type.inner:
                self.nested(type, some)
                continue
            given = [*some, None, cqlp.EMPTY if not isinstance(some[0], (str, bytes)) else some[0], *some]
            page = cqlp.encode(messages.Rows.of([("a", type)], [(value,) for value in given]))
            for rows in (1, 3, 99):
                found = []
                for batch in cqlp.arrays(page, rows=rows):
                    (form, name, flags, words, inner), column = taken(batch["a"])
                    self.assertEqual(form[:1] in (b"d", b"U") or type.kind not in (Kind.VARINT, Kind.DECIMAL), True)
                    self.assertEqual((name, flags, inner, words[b"cqlp.type"]), (b"a", 2, [], str(type).encode()))
                    self.assertEqual(words.get(b"ARROW:extension:name"), b"arrow.uuid" if form == b"w:16" else None)
                    self.assertEqual([(value,) for value in column], taken(batch)[1])
                    first = len(found)
                    found += column
                    self.assertEqual(column, [in_arrow(type.kind, value, form) for value in given[first : len(found)]], text)
                self.assertEqual(len(found), len(given))

    def nested(self, type: Type, some: List[Any]) -> None:
        given = [*some, None, *some]
        page = cqlp.encode(messages.Rows.of([("n", "int"), ("a", type)], [(at, value) for at, value in enumerate(given)]))
        for rows in (1, 99):
            found = []
            for batch in cqlp.arrays(page, rows=rows):
                (form, _, _, _, columns), both = taken(batch)
                self.assertEqual((form, columns[1]), (b"+s", taken(batch["a"])[0]))
                found += both
            self.assertEqual(found, [(at, in_items(type, value)) for at, value in enumerate(given)], type)

    def test_decimals_of_one_scale(self) -> None:
        most, more = decimal.Decimal("9" * 38), decimal.Decimal("9" * 76)
        for given, form in (
            (["1.50", "-2.25", "0.00"], b"d:38,2"),
            (["0"], b"d:38,0"),
            (["3E+5", "-1E+5", "0E+5"], b"d:38,0"),
            (["0E+2147483648"], b"d:38,0"),
            ([most, most.copy_negate()], b"d:38,0"),
            ([EXACT.add(most, 1)], b"d:76,0,256"),
            ([more, more.copy_negate()], b"d:76,0,256"),
            ([EXACT.add(more, 1)], b"U"),
            (["1E+37"], b"d:38,0"),
            (["1E+38"], b"d:76,0,256"),
            (["1E+76"], b"U"),
            (["1E-38"], b"d:38,38"),
            (["1E-39"], b"d:76,39,256"),
            (["-1E-76"], b"d:76,76,256"),
            (["1E-77"], b"U"),
            (["1.5", "2.25"], b"U"),
            ([str(1 << 4000)], b"U"),
            ([], b"U"),
        ):
            numbers = [None, *map(EXACT.create_decimal, given), cqlp.EMPTY]
            for type, wrap in (("decimal", lambda one: one), ("list<decimal>", lambda one: [one, one])):
                page = cqlp.encode(messages.Rows.of([("a", type)], [(wrap(one),) for one in numbers]))
                (batch,) = cqlp.arrays(page)
                (found, _, _, _, inner), column = taken(batch["a"])
                self.assertEqual((inner[0][0] if inner else found), form, given)
                wanted = [in_arrow(Kind.DECIMAL, one, form) for one in numbers]
                self.assertEqual(column, list(map(wrap, wanted)), given)

    def test_varints(self) -> None:
        for number in (0, 10**38 - 1, 10**38, 10**76 - 1, 10**76, 1 << 255, (1 << 255) - 1, 1 << 256, 1 << 2000, 1 << 40000):
            for given in ([number], [-number], [None, number, -number, cqlp.EMPTY]):
                digits = len(str(decimal.Decimal(number))) if number < 1 << 300 else 999
                form = b"d:38,0" if digits <= 38 else b"d:76,0,256" if digits <= 76 else b"U"
                page = cqlp.encode(messages.Rows.of([("a", "varint")], [(one,) for one in given]))
                (batch,) = cqlp.arrays(page)
                (found, *_), column = taken(batch["a"])
                self.assertEqual((found, column), (form, [in_arrow(Kind.VARINT, one, form) for one in given]))
        # two's complement with more bytes than it needs
        for content in (bytes(40) + b"\x80", b"\xff" * 40 + b"\x80"):
            (batch,) = cqlp.arrays(made_page([b"\0\x0e"], [[cell(content)]]))
            self.assertEqual(taken(batch["c0"])[1], [128 if content[0] == 0 else -128])

    def test_decimals_by_choice(self) -> None:
        columns = [("a", "decimal"), ("b", "varint"), ("c", "map<decimal, list<varint>>")]
        rows = [(decimal.Decimal("1.50"), 7, {decimal.Decimal("-0.5"): [1, None]}), (None, cqlp.EMPTY, None)]
        page = cqlp.encode(messages.Rows.of(columns, rows))
        (batch,) = cqlp.arrays(page, decimals="text")
        self.assertEqual(taken(batch)[1], [("1.50", "7", [("-0.5", ["1", None])]), (None, None, None)])
        (batch,) = cqlp.arrays(page, decimals="bytes")
        scaled = [struct.pack(">i", 2) + b"\0\x96", struct.pack(">i", 1) + b"\xfb"]
        self.assertEqual(taken(batch)[1], [(scaled[0], b"\7", [(scaled[1], [b"\1", None])]), (None, b"", None)])
        self.assertRaises(ValueError, cqlp.arrays, page, decimals="float")

    def test_streams_of_decimals(self) -> None:
        """The first batch says what type they have, and a number that has another scale is written with that, where it can be."""

        def pages(*groups: List[Any]) -> bytes:
            columns = [("id", "int"), ("price", "decimal"), ("n", "list<varint>")]
            return b"".join(cqlp.encode(messages.Rows.of(columns, [(1, one, [2]) for one in map(EXACT.create_decimal, group)])) for group in groups)

        one, two, three = ["1.50"], ["2", "3.5", "4E+1", "0E+9", "0.000"], ["1.505"]
        self.assertEqual([str(row[1]) for row in read(cqlp.arrays(pages(one, two)))[0]], ["1.50", "2.00", "3.50", "40.00", "0.00", "0.00"])
        rows, error = read(cqlp.arrays(pages(one, three)))
        said = "the column 'price' has the number 1.505, which is no decimal128(38, 2): pass decimals=\"text\" for texts in its place"
        self.assertEqual((len(rows), error), (1, said.encode()))
        self.assertEqual([row[1] for row in read(cqlp.arrays(pages(one, three), decimals="text"))[0]], ["1.50", "1.505"])
        self.assertEqual([row[1] for row in read(cqlp.arrays(pages(one + three, one)))[0]], ["1.50", "1.505", "1.50"])
        rows, error = read(cqlp.arrays(pages(one, ["1" * 5000])))
        self.assertTrue(len(rows) == 1 and error and b"1111.., which is no decimal128(38, 2)" in error)
        other = cqlp.encode(messages.Rows.of([("id", "int"), ("price", "int"), ("n", "list<varint>")], [(1, 1, [2])]))
        for given in (other + pages(one), pages(one) + other, pages(one) + cqlp.encode(messages.Rows.of([("id", "int")], []))):
            self.assertEqual(read(cqlp.arrays(given))[1], b"page 1 has other columns than the page before it")

    def test_decimals_in_c_refuse_other_buffers(self) -> None:
        capsules, ends = _arrow.capsules(), struct.pack("=2q", 0, 5)
        self.assertEqual(capsules.scale_of(b"\0\0\0\2\7", ends, None, 1, True), (38, 2))
        for wrong in ((b"", b"", None, 0, True), (b"", ends, None, 2, True), (b"", ends, None, -1, True), (b"", ends, b"", 1, True)):
            self.assertRaises(ValueError, capsules.scale_of, *wrong)
            self.assertRaises(ValueError, capsules.decimals, *wrong, 0, 38)
        for offsets in ((0, 6), (5, 0), (-1, 5), (0, 3)):  # a cell that is not there
            self.assertIsNone(capsules.scale_of(b"\0\0\0\2\7", struct.pack("=2q", *offsets), None, 1, True))

    def test_layout(self) -> None:
        """Each buffer begins at a multiple of 8 bytes, is as long as its cells ask, and has zeros behind the last bit; where values are missing there are
        zeros, and no offset goes back."""
        for text, some in VALUES.items():
            given = [*some, None] * 5
            page = cqlp.encode(messages.Rows.of([("a", text), ("b", "list<int>")], [(one, [1]) for one in given]))
            for alone in (page, cqlp.encode(messages.Rows.of([("a", text)], [(one,) for one in given]))):
                (batch,) = cqlp.arrays(alone)
                schema = batch._arrow_schema()
                self.laid_out(batch._arrow_array(schema), schema)
                capsules = batch.__arrow_c_array__()
                array = moved(Array, capsules[1])
                self.aligned(array)
                release(array)

    def aligned(self, array: Array) -> None:
        for at in range(array.n_buffers):
            self.assertEqual((array.buffers[at] or 0) % 8, 0)
        for at in range(array.n_children):
            self.aligned(array.children[at][0])

    def laid_out(self, parts: Any, schema: Any) -> None:
        cells, nulls, (validity, *buffers), items = parts
        form, _, _, _, children = schema
        if validity is not None:
            self.assertEqual(len(validity), (cells + 7) // 8)
            self.assertEqual((int.from_bytes(validity, "little") >> cells, bin(int.from_bytes(validity, "little")).count("1")), (0, cells - nulls))
        if form in (b"U", b"Z", b"+L", b"+m"):
            ends = struct.unpack("=%d%s" % (cells + 1, "i" if form == b"+m" else "q"), buffers[0])
            last = items[0][0] if items else len(buffers[1])
            self.assertTrue(ends[0] == 0 and ends[-1] == last and list(ends) == sorted(ends))
        elif form == b"b":
            self.assertEqual((len(buffers[0]), int.from_bytes(buffers[0], "little") >> cells), ((cells + 7) // 8, 0))
        elif form != b"+s":
            size = struct.calcsize(NUMBERS[form]) if form in NUMBERS else 32 if form.endswith(b"256") else 16
            self.assertEqual(len(buffers[0]), size * cells)
            for at in range(cells):
                if validity is not None and not validity[at // 8] >> at % 8 & 1 and form != b"tdD":
                    self.assertEqual(buffers[0][size * at : size * at + size], bytes(size))
        self.assertEqual(len(items), len(children))
        for item, inner in zip(items, children):
            self.assertTrue(form != b"+s" or item[0] == cells)
            self.laid_out(item, inner)

    def test_releases_once_and_leaks_nothing(self) -> None:
        page = cqlp.encode(messages.Rows.of([("a", text) for text in VALUES], [tuple(some[0] for some in VALUES.values()), (None,) * len(VALUES)]))

        def once() -> None:
            for rows in (1, 99):
                for batch in cqlp.arrays(page, rows=rows):
                    taken(batch)
                    batch.__arrow_c_array__()
                read(cqlp.arrays(page, rows=rows))
                next(cqlp.arrays(page, rows=rows)).__arrow_c_schema__()

        once()
        gc.collect()
        tracemalloc.start()
        once()
        gc.collect()
        before = tracemalloc.get_traced_memory()[0]
        for _ in range(5):
            once()
        gc.collect()
        after = tracemalloc.get_traced_memory()[0]
        tracemalloc.stop()
        self.assertLess(after - before, 20_000)

    def test_scalars_beside_values_with_items(self) -> None:
        """Their arrays are those that the library makes of a page of scalars alone."""
        for text, some in VALUES.items():
            type = Type.of(text)
            empty = cqlp.EMPTY if not isinstance(some[0], (str, bytes)) else some[0]
            for given in ([], some, [*some, None], [None, empty, *some]):
                if not type.inner:
                    alone = messages.Rows.of([("a", type)], [(value,) for value in given])
                    beside = messages.Rows.of([("a", type), ("b", "list<int>")], [(value, [1]) for value in given])
                    (first,), (second,) = cqlp.arrays(cqlp.encode(alone)), cqlp.arrays(cqlp.encode(beside))
                    self.assertEqual(first["a"], second["a"], text)

    def test_columns_that_are_chosen(self) -> None:
        columns = [("a", "int"), ("b", "list<int>"), ("c", "text")]
        nested = cqlp.encode(messages.Rows.of(columns, [(1, [2], "x"), (None, None, None)]))
        plain = cqlp.encode(messages.Rows.of(columns[::2], [(1, "x")]))
        for names in ([], ["a"], ["c", "a"]):
            first, second = cqlp.arrays(nested + plain, columns=names)
            self.assertEqual([one.column.name for one in first.arrays], [name for name in "abc" if name in names])
            self.assertEqual([one.column.name for one in second.arrays], [name for name in "ac" if name in names])
            self.assertEqual((first.count, second.count), (2, 1))
        self.assertEqual(taken(next(cqlp.arrays(nested, columns=["c"])))[1], [("x",), (None,)])

    def test_a_map_with_a_key_that_is_null(self) -> None:
        page = cqlp.encode(messages.Rows.of([("a", "map<int, int>")], [({None: 1},)]))
        (batch,) = cqlp.arrays(page)
        self.assertRaises(ValueError, batch.__arrow_c_array__)

    def test_batches(self) -> None:
        (batch,) = cqlp.arrays(PAGES[:218])
        said_of, rows = taken(batch)
        self.assertEqual(rows, list(cqlp.rows(PAGES[:218])))
        self.assertEqual([said_of[0], said_of[1], said_of[2], [one[:2] for one in said_of[4]]], [
            b"+s", b"", 0, [(b"i", b"column0"), (b"l", b"column1"), (b"U", b"column2"), (b"b", b"column3")]
        ])
        schema = moved(Schema, batch.__arrow_c_schema__())
        self.assertEqual(said(schema), said_of)
        release(schema)
        for columns in ([], [("a", "int"), ("b", "text"), ("c", "blob"), ("d", "boolean")]):
            (none,) = cqlp.arrays(cqlp.encode(messages.Rows.of(columns, [])))
            self.assertEqual(taken(none)[1], [])
        (raw,) = cqlp.arrays(cqlp.encode(messages.Rows(messages.Metadata(4, 1, None, ()), 1, [(b"x",)])))
        self.assertEqual(taken(raw), ((b"+s", b"", 0, {}, [(b"Z", b"", 2, {b"cqlp.type": b"raw"}, [])]), [(b"x",)]))

    def test_buffers_live_as_long_as_their_array(self) -> None:
        (batch,) = cqlp.arrays(PAGES[:218])
        held = batch["column2"].values
        before = sys.getrefcount(held)
        for _ in range(3):  # capsules of which nothing is taken
            batch.__arrow_c_array__()
        self.assertEqual(sys.getrefcount(held), before)
        schema, array = (moved(kind, capsule) for kind, capsule in zip((Schema, Array), batch.__arrow_c_array__()))
        self.assertEqual(sys.getrefcount(held), before + 1)
        # a consumer may move a child out, and release its parent before it
        child = Array.from_buffer_copy(bytes(array.children[2][0]))
        array.children[2][0].release = None
        thread = threading.Thread(target=release, args=(array,))
        thread.start()
        thread.join()
        del batch
        gc.collect()
        self.assertEqual(values(schema.children[2][0], child), [row[2] for row in cqlp.rows(PAGES[:218])])
        release(child)
        release(schema)
        self.assertLess(sys.getrefcount(held), before)

    def test_streams(self) -> None:
        page = cqlp.encode(messages.Rows.of([("a", "int"), ("b", "text")], [(at, "row %d" % at) for at in range(1000)]))
        wanted = list(cqlp.rows(page * 2))
        self.assertEqual(read(cqlp.arrays(page * 2, rows=300)), (wanted, None))
        batches = cqlp.arrays(page * 2, rows=300)
        next(batches)
        self.assertEqual(read(batches), (wanted[300:], None))
        self.assertRaises(ValueError, cqlp.arrays(b"").__arrow_c_stream__)
        cqlp.arrays(page).__arrow_c_stream__()  # is let go, and nothing was taken

    def test_a_stream_that_ended_has_no_more(self) -> None:
        page = cqlp.encode(messages.Rows.of([("a", "int")], [(1,)]))
        for data, wanted in ((page, 0), (page[:-1] + b"x", 0), (page + page[:-1], 5)):
            stream = moved(Stream, cqlp.arrays(data).__arrow_c_stream__())
            place, codes = ctypes.addressof(stream), []
            for _ in range(4):
                array = Array()
                codes.append(FILL(stream.get_next)(place, ctypes.addressof(array)))
                if array.release:
                    release(array)
            self.assertEqual(codes, [0, wanted, 0, 0])
            self.assertEqual(SAY(stream.get_last_error)(place) is not None, wanted > 0)
            release(stream)
        batches = cqlp.arrays(page)
        batches.close()
        self.assertEqual(list(batches), [])
        self.assertRaises(ValueError, batches.__arrow_c_stream__)

    def test_pages_that_are_changed(self) -> None:
        """A consumer takes what comes of pages with bytes changed, and finds the values that the arrays have without the module in C."""
        random = Random(7)
        columns = [("a%d" % at, text) for at, text in enumerate(VALUES)]
        whole = cqlp.encode(messages.Rows.of(columns, [tuple(some[at % len(some)] for some in VALUES.values()) for at in range(3)]))
        begin = len(cqlp.encode(messages.Rows.of(columns, [])))
        counts = [0, 0]
        for _ in range(CHANGES):
            data = bytearray(whole)
            for _ in range(random.choice((1, 1, 2, 5))):
                data[random.randrange(begin if random.random() < 0.9 else 13, len(data))] = random.choice((0, 1, 0xFF, random.randrange(256)))
            given, rows = {"rows": random.choice((1, 2, 99)), "piece": random.choice((1, 100, 1 << 20))}, 0
            try:
                for batch in cqlp.arrays(bytes(data), **given, decimals=random.choice(("decimal", "text", "bytes"))):
                    rows += batch.count
                    try:
                        self.assertEqual(len(taken(batch)[1]), batch.count)
                    except ValueError as error:
                        self.assertRegex(str(error), "a key of a map in the column 'a[0-9]+' is null")
                ended = None
            except (cqlp.Refused, cqlp.Cut) as error:
                ended = str(error)
            counts[ended is None] += 1
            self.assertEqual((rows, ended), ended_rows(bytes(data)))
        self.assertTrue(all(counts), counts)

    def test_threads_that_share_a_stream(self) -> None:
        """Each array comes to one of them; one that comes while another reads gets an error."""
        page = cqlp.encode(messages.Rows.of([("a", "int"), ("b", "list<text>")], [(at, ["x"]) for at in range(2000)]))
        stream = moved(Stream, cqlp.arrays(page, rows=1).__arrow_c_stream__())
        found: List[Any] = []

        def take() -> None:
            while True:
                array = Array()
                if FILL(stream.get_next)(ctypes.addressof(stream), ctypes.addressof(array)):
                    continue
                if not array.release:
                    return
                first = array.children[0][0]
                found.append(ctypes.c_int32.from_address(first.buffers[1]).value)
                release(array)

        threads = [threading.Thread(target=take) for _ in range(4)]
        for thread in threads:
            thread.start()
        for thread in threads:
            thread.join()
        release(stream)
        self.assertEqual(sorted(found), list(range(2000)))

    def test_a_buffer_that_changes(self) -> None:
        """Texts are those that were read, whatever is put into the buffer between two batches."""
        page = cqlp.encode(messages.Rows.of([("a", "list<text>")], [(["text %d" % at],) for at in range(1000)]))
        data = bytearray(page)
        batches = cqlp.arrays(data, rows=10)
        found = [next(batches)]
        data[len(data) // 100 :] = b"\xff" * (len(data) - len(data) // 100)
        found += batches
        self.assertEqual([row for batch in found for row in taken(batch)[1]], list(cqlp.rows(page)))

    def test_streams_that_end_with_an_error(self) -> None:
        page = cqlp.encode(messages.Rows.of([("a", "int")], [(1,)]))
        other = cqlp.encode(messages.Rows.of([("b", "int")], [(1,)]))
        self.assertEqual(read(cqlp.arrays(page + other)), ([(1,)], b"page 1 has other columns than the page before it"))
        self.assertEqual(read(cqlp.arrays(page + page[:-1])), ([(1,)], b"cut after 83 bytes, within the frame at 42"))
        self.assertRaises(cqlp.Cut, cqlp.arrays(page[:-1]).__arrow_c_stream__)

    def test_names_and_types_that_c_cannot_hold(self) -> None:
        (batch,) = cqlp.arrays(cqlp.encode(messages.Rows.of([("a\0b", Type.udt("k.u", [("c\0", "int")]))], [({"c\0": 1},)])))
        (_, name, _, _, inner), column = taken(batch["a\0b"])
        self.assertEqual((name, inner[0][1], column), (b"a\\0b", b"c\\0", [(1,)]))
        capsules = _arrow.capsules()
        for wrong in ((), (b"i", b"a", None, 0, (1,)), (b"i", b"a", None, 0, ((b"i", b"a", None, 0, (), 5),)), (5, b"", None, 0, ())):
            self.assertRaises((TypeError, SystemError), capsules.schema, *wrong)
        for wrong in ((), (1, 0, (5,), ()), (1, 0, (b"",), (5,)), (1, 0, [], ()), (1, 0, (None,), ((1, 0, (5,), ()),))):
            self.assertRaises((TypeError, SystemError), capsules.array, *wrong)
        self.assertRaises(TypeError, capsules.stream, 5)


def ended_rows(data: bytes) -> Tuple[int, Optional[str]]:
    """How many rows a stream has, and how it ends."""
    rows = 0
    try:
        for _ in cqlp.rows(data):
            rows += 1
    except (cqlp.Refused, cqlp.Cut) as error:
        return rows, str(error)
    return rows, None


def read(source: Any) -> Tuple[List[Any], Optional[bytes]]:
    """The rows of a stream, and its error, if it ends with one."""
    stream, schema, found = moved(Stream, source.__arrow_c_stream__()), Schema(), []
    place, error = ctypes.addressof(stream), None
    assert FILL(stream.get_schema)(place, ctypes.addressof(schema)) == 0
    while True:
        array = Array()
        if FILL(stream.get_next)(place, ctypes.addressof(array)):
            error = SAY(stream.get_last_error)(place)
            break
        if not array.release:
            break
        found += values(schema, array)
        release(array)
    release(stream)
    release(schema)
    return found, error


class WithoutModule(unittest.TestCase):
    def test_it_says_what_is_missing(self) -> None:
        (batch,) = cqlp.arrays(PAGES[:218])
        with mock.patch.dict(sys.modules, {"cqlp._capsules": None}):
            self.assertRaises(ImportError, batch.__arrow_c_array__)
