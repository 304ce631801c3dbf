"""Columns have what rows have, by the module in C and by Python alone."""

import ctypes
import gc
import struct
import sys
import tracemalloc
import types
import unittest
from array import array
from datetime import date, datetime, timedelta, timezone
from typing import Any, List, Optional, Tuple
from unittest import mock

import cqlp
from cqlp import Kind, _columns, _native, _pages
from cqlp import messages as m

from .streams import BINDINGS, streams
from .test_cells import exact
from .test_pages import COMPILED, INT, NOTHING, NULL, SCALARS, VARCHAR, cell, list_of, made, page, text

ITEMS = {Kind.BOOLEAN: "b", Kind.TINYINT: "b", Kind.SMALLINT: "h", Kind.INT: "i", Kind.DATE: "i", Kind.FLOAT: "f", Kind.DOUBLE: "d"}
ITEMS.update((kind, "q") for kind in (Kind.BIGINT, Kind.COUNTER, Kind.TIMESTAMP, Kind.TIME))
EPOCH = datetime(1970, 1, 1, tzinfo=timezone.utc)


def number(value: Any) -> Any:
    """The number in a column of a value in a row."""
    if isinstance(value, datetime):
        return (value - EPOCH) // timedelta(milliseconds=1)
    return (value - date(1970, 1, 1)).days if isinstance(value, date) else value


def series_of(column: Optional[cqlp.Column], typed: bool, values: List[Any]) -> Tuple[Any, ...]:
    code = ITEMS.get(column.type.kind) if column is not None and typed else None
    if code is None:
        return column, exact(values), None
    absent = bytes({None: 1, cqlp.EMPTY: 2}.get(value, 0) if value is None or value is cqlp.EMPTY else 0 for value in values)
    numbers = array(code, [0 if value is None or value is cqlp.EMPTY else number(value) for value in values])
    return column, (code, list(map(repr, numbers))), absent if any(absent) else None


def wanted(frame: m.Frame, typed: bool) -> Tuple[Any, ...]:
    """What the columns of a page are, by its rows."""
    x = frame.message
    columns: Any = x.metadata.columns or [None] * (x.metadata.width if x.rows else 0)
    return [series_of(column, typed, [row[at] for row in x.rows]) for at, column in enumerate(columns)], x.count, x.metadata.paging_state


def shown(found: cqlp.PageColumns) -> Tuple[Any, ...]:
    series = []
    for one in found.series:
        values = (one.values.typecode, list(map(repr, one.values))) if isinstance(one.values, array) else exact(one.values)
        series.append((one.column, values, one.missing))
    return series, found.count, found.paging_state


# How columns are read: by the module in C with cells that go through the library's arrays, as it is, and with as many of them as can, into arrays that
# are full with two rows or with one, and have no room for a value of more than 16 bytes; and by Python alone.
WAYS = [(compiled, words) for compiled in COMPILED for words in ({}, {"_ROOM": 1, "_ROWS": 2}, {"_ROOM": 1, "_MEMORY": 1}) if compiled or not words]


def read(data: bytes, limits: cqlp.Limits, compiled: Any, sizes: Any = {}, **words: Any) -> Tuple[List[cqlp.PageColumns], Any]:
    pages = []
    with mock.patch.object(_pages, "_compiled", compiled), mock.patch.multiple(_columns, **{"_ROOM": 1024, **sizes}):
        try:
            for found in cqlp.columns(data, limits, **words):
                pages.append(found)
        except (cqlp.Refused, cqlp.Cut) as error:
            return pages, str(error)
    return pages, None


class Columns(unittest.TestCase):
    def agrees(self, data: bytes, limits: cqlp.Limits = cqlp.Limits(), pieces: Tuple[int, ...] = (1 << 20,)) -> None:
        frames, ending = [], None
        try:
            for frame in cqlp.frames(data, limits):
                frames += [frame] if isinstance(frame.message, m.Rows) else []
        except (cqlp.Refused, cqlp.Cut) as error:
            ending = str(error)
        of_rows = [wanted(frame, limits.types) for frame in frames]
        for compiled, sizes in WAYS:
            for piece in pieces:
                found, end = read(data, limits, compiled, sizes, piece=piece)
                self.assertEqual([shown(one) for one in found], of_rows)
                self.assertEqual(end, ending)

    def test_streams(self) -> None:
        for stream in streams():
            with self.subTest(stream.name):
                self.agrees(stream.bytes, stream.limits, (1, 7, 1 << 20))

    def test_streams_with_a_byte_changed(self) -> None:
        for stream in streams():
            for at in range(0, len(stream.bytes), 5):
                data = bytearray(stream.bytes)
                data[at] ^= 1 << at % 8
                self.agrees(bytes(data), stream.limits)

    def test_pages_of_the_benchmarks(self) -> None:
        for words in (("rows", "300"), ("rows", "bare", "300"), ("collections", "50"), ("columns", "5"), ("kinds", "200")):
            self.agrees(made(*words), pieces=(1000, 65536))
        self.agrees(made("blobs", "1"), cqlp.Limits(cell=4096, parts=True), (65536,))

    def test_scalars(self) -> None:
        for id, content, _ in SCALARS:
            option = struct.pack(">H", id)
            for limits in (cqlp.Limits(), cqlp.Limits(types=False)):
                self.agrees(page([option], [[cell(content)], [NULL], [NOTHING]] * 50), limits, (1, 65536))
                self.agrees(page([option], [[cell(content)]] * 3), limits)
            self.agrees(page([option, b"\0\x20" + option], [[NULL, list_of(cell(content), NULL)], [cell(content), list_of()]]))

    def test_pages_of_many_columns(self) -> None:
        """Of which a row is under way when their cells go into arrays, and some texts are longer than the arrays take."""
        numbers, words = [cell(b"\0\0\1\2"), NULL, NOTHING, cell(b"\xff" * 4)], [cell(b"text"), NULL, cell(b"x" * 9000), NOTHING]
        for width in (33, 150, 700):
            rows = [[(words if at % 2 else numbers)[(at // 2 + row) % 4] for at in range(width)] for row in range(4000 // width)]
            data = page([VARCHAR if at % 2 else INT for at in range(width)], rows)
            self.agrees(data, pieces=(1000, 65536))
            self.assertEqual(sum(found.count for found in cqlp.columns(data)), len(rows))

    def test_floats_keep_their_bits(self) -> None:
        for option, form, bits in (
            (b"\0\x07", ">Q", (0, 1 << 63, 0x7FF0 << 48, 0x7FF0 << 48 | 1, 0x7FF8 << 48 | 5, 0xFFF8 << 48, 1, 0x3FF0 << 48)),
            (b"\0\x08", ">I", (0, 1 << 31, 0x7F80 << 16, 0x7F80 << 16 | 1, 0x7FC0 << 16 | 5, 0xFFC0 << 16, 1, 0x3F80 << 16)),
        ):
            data = page([option], [[cell(struct.pack(form, one))] for one in bits])
            for compiled, sizes in WAYS:
                ((found,), _) = read(data, cqlp.Limits(), compiled, sizes)
                octets = found.series[0].values.tobytes()
                self.assertEqual(struct.unpack("=%d%s" % (len(bits), form[1]), octets), bits)

    def test_a_content_that_its_type_does_not_have(self) -> None:
        """It is missing among numbers, whatever it begins with, and bytes in a list."""
        odd = {
            0x02: (b"\x01" * 7, struct.pack(">q", 9), 9),
            0x04: (b"\x01\x01", b"\x01", 1),
            0x05: (b"\x01" * 9, struct.pack(">q", -9), -9),
            0x07: (struct.pack(">f", 1.5), struct.pack(">d", 1.5), 1.5),
            0x08: (struct.pack(">d", 1.5), struct.pack(">f", 0.5), 0.5),
            0x09: (b"123", struct.pack(">i", 7), 7),
            0x0B: (b"\x01" * 4, struct.pack(">q", 1000), 1000),
            0x11: (b"\x80", struct.pack(">I", (1 << 31) + 3), 3),
            0x12: (struct.pack(">q", 86_400_000_000_000), struct.pack(">q", 5), 5),
            0x13: (b"\x01", b"\0\x02", 2),
            0x14: (b"\0\x01", b"\xff", -1),
        }
        options = [struct.pack(">H", id) for id in odd]
        rows = [[cell(good) for _, good, _ in odd.values()], [cell(bad) for bad, _, _ in odd.values()], [NULL] * len(odd), [NOTHING] * len(odd)]
        data = page(options + [VARCHAR], [row + [last] for row, last in zip(rows, [cell(b"a"), cell(b"\xed\xa0\x80"), NULL, NOTHING])])
        for compiled, sizes in WAYS:
            for piece in (1, 65536):
                (found,), end = read(data, cqlp.Limits(), compiled, sizes, piece=piece, lenient=True)
                self.assertIsNone(end)
                for series, (_, _, good) in zip(found.series, odd.values()):
                    self.assertEqual((list(series.values), series.missing), ([good, 0, 0, 0], b"\0\x03\x01\x02"))
                self.assertEqual(found.series[-1][1:], (["a", b"\xed\xa0\x80", None, ""], None))
            self.assertEqual(read(data, cqlp.Limits(), compiled)[0], [])

    def test_a_series_by_name(self) -> None:
        (first, second) = cqlp.columns(BINDINGS / "pages.bin")
        self.assertEqual(first["column1"].values, array("q", [0, 1000003, 2000006]))
        self.assertEqual(list(first["column3"].values), [0, 1, 0])
        self.assertRaises(KeyError, lambda: second["column2"])

    def test_a_number_of_columns_that_lies_takes_no_memory(self) -> None:
        """Columns that are not described, 2,147,483,647 of them, with no row and with one; and as many as the body can have."""
        for compiled, sizes in WAYS:
            for width, rows, length, end in (
                (0x7FFFFFFF, 0, 16, None),
                (0x7FFFFFFF, 1, 16, cqlp.Refused),
                (0x7FFFFFFF, 1, 1 << 28, cqlp.Cut),
                (1 << 26, 1, 1 << 28, cqlp.Cut),
            ):
                body = struct.pack(">iiii", 2, 4, width, rows) + (NULL * 3 if length > 16 else b"")
                data = struct.pack(">BBhBi", 0x84, 0, 0, 8, length) + body
                tracemalloc.start()
                pages, ending = read(data, cqlp.Limits(), compiled, sizes)
                peak = tracemalloc.get_traced_memory()[1]
                tracemalloc.stop()
                self.assertLess(peak, 2_000_000)
                self.assertEqual([(one.series, one.count) for one in pages], [] if end else [((), 0)])
                self.assertEqual(ending is None, end is None)

    def test_frames_that_are_passed_over(self) -> None:
        """Within the rows of a page, at each of its bytes."""
        bad = bytearray(page([INT, VARCHAR], [[cell(struct.pack(">i", 7)), cell(b"abc")]] * 3 + [[cell(b"12345678"), NULL]] + [[NULL, NULL]] * 3))
        good = page([INT, VARCHAR], [[cell(struct.pack(">i", at)), cell(b"%d" % at)] for at in range(9)])
        for compiled, sizes in WAYS:
            for piece in (1, 50, 65536):
                passed: List[cqlp.Skipped] = []
                found, end = read(good + bytes(bad) + good, cqlp.Limits(), compiled, sizes, piece=piece, skip=passed.append)
                self.assertEqual((len(passed), passed[0].frame.at, end), (1, len(good), None))
                self.assertEqual([list(one.series[0].values) for one in found], [list(range(9))] * 2)
                self.assertEqual([one.series[1].values for one in found], [[str(at) for at in range(9)]] * 2)

    def test_a_page_that_is_too_long_is_not_held(self) -> None:
        pages = (BINDINGS / "pages.bin").read_bytes()
        self.assertEqual(len(list(cqlp.columns(pages, longest=386))), 2)
        self.assertRaises(cqlp.FrameTooLong, list, cqlp.columns(pages, longest=385))

    def test_it_holds_nothing_when_it_is_let_go(self) -> None:
        data = made("collections", "50") + made("kinds", "20") + page([INT, VARCHAR], [[NULL, cell(b"a")], [NOTHING, NULL]] * 200)
        cuts = [data[: len(data) * part // 40] for part in range(41)]

        def once() -> None:
            for cut in cuts:
                read(cut, cqlp.Limits(), *WAYS[len(WAYS) > 1])

        once()
        gc.collect()
        tracemalloc.start()
        once()
        gc.collect()
        before = tracemalloc.get_traced_memory()[0]
        for _ in range(5):
            once()
        gc.collect()
        after = tracemalloc.get_traced_memory()[0]
        tracemalloc.stop()
        self.assertLess(after - before, 20_000)

    @unittest.skipUnless(_pages._compiled, "the module in C is not built")
    def test_bad_columns(self) -> None:
        leaves: List[Any] = [None] * 256
        for width, of in ((0, ()), (-1, ()), (2, ((9, ()),)), (1, ("no type",)), (1, (7,)), (1, ((1 << 70, ()),))):
            self.assertRaises((ValueError, SystemError, OverflowError), _pages._compiled.Cells, width, of, leaves, None, None, True)
        types_of_two = ((Kind.INT, ()), (Kind.VARCHAR, ()))
        self.assertEqual(_pages._compiled.Cells(2, types_of_two, leaves, None, None, True).columns(), [(b"", None), ([], None)])
        self.assertEqual(_pages._compiled.Cells(sys.maxsize, (), leaves, None, None, True).columns(), [])
        self.assertEqual(_pages._compiled.Cells(2, (), leaves, None, None).columns(), [])
        views = (_native.Column * 2)()
        place = ctypes.addressof(views)
        for width, of, to_columns, count in ((2, types_of_two, True, 1), (2, types_of_two, False, 2), (2, (), True, 2), (1, types_of_two[:1], True, 1)):
            self.assertRaises(ValueError, _pages._compiled.Cells(width, of, leaves, None, None, to_columns).put, place, count)

    def test_numpy(self) -> None:
        """Where NumPy is not there, that it is asked for an array over the numbers."""
        (first, _) = cqlp.columns(BINDINGS / "pages.bin")
        try:
            import numpy
        except ImportError:
            numpy = types.SimpleNamespace(asarray=lambda view: view)
        with mock.patch.dict(sys.modules, {"numpy": numpy}):
            self.assertEqual(list(first["column0"].numpy()), [0, 1, 2])
            self.assertRaises(TypeError, first["column2"].numpy)
