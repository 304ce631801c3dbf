"""Arrays have what rows have, wherever a stream is cut into pieces."""

import ctypes
import gc
import pickle
import struct
import sys
import tracemalloc
import types
import unittest
from dataclasses import replace
from ipaddress import ip_address
from typing import Any, List, Optional, Tuple
from unittest import mock
from uuid import UUID

import cqlp
from cqlp import Code, Kind, Tag, _arrays, _native
from cqlp._pages import _frozen
from cqlp._values import LEAVES

from .streams import BINDINGS, streams
from .test_cells import exact
from .test_pages import INT, NOTHING, NULL, SCALARS, VARCHAR, cell, list_of, made, page

BOOLEAN = b"\0\4"
ITEMS = {Kind.LIST, Kind.MAP, Kind.SET, Kind.TUPLE, Kind.UDT}
TEXTS, BYTES = (Kind.ASCII, Kind.VARCHAR), (Kind.BLOB, Kind.CUSTOM, Kind.RAW)


def bit(bits: Any, at: int, otherwise: bool) -> bool:
    return otherwise if bits is None else bool(bits[at // 8] >> at % 8 & 1)


def leaf(kind: Any, number: int, content: bytes, extra: int = 0, octets: bytes = b"") -> Any:
    return LEAVES[int(kind)](number, content, extra, octets)


def value(of: cqlp.ColumnArray, at: int) -> Any:
    """What `rows` has of a value that is there."""
    if of.kind == Kind.BOOLEAN:
        return bit(of.values, at, False)
    if of.kind in (Kind.UUID, Kind.TIMEUUID):
        return UUID(bytes=of.values[16 * at : 16 * at + 16])
    if of.offsets is None:
        number = of.numbers()[at]
        return number if isinstance(number, float) else leaf(of.kind, number, b"")
    content = of.values[of.offsets[at] : of.offsets[at + 1]]
    if of.kind == Kind.INET:
        return ip_address(content)
    if of.kind == Kind.DECIMAL:
        scale = int.from_bytes(content[:4], "big", signed=True)
        return leaf(of.kind, 0, content[4:], scale)
    return leaf(of.kind, 0, content)


def items(of: cqlp.ColumnArray, type: cqlp.Type) -> List[Any]:
    """What `rows` has of each value with items, also where there is none."""
    inner = [values(one, each) for one, each in zip(of.items, type.inner)]
    if of.kind == Kind.TUPLE:
        return list(zip(*inner)) if inner else [()] * of.cells
    if of.kind == Kind.UDT:
        return [dict(zip(type.names, fields)) for fields in zip(*inner)] if inner else [{}] * of.cells
    spans = list(zip(of.offsets or (), (of.offsets or ())[1:]))
    if of.kind == Kind.LIST:
        return [inner[0][begin:end] for begin, end in spans]
    if of.kind == Kind.SET:
        return [set(map(_frozen, inner[0][begin:end])) for begin, end in spans]
    return [dict(zip(map(_frozen, inner[0][begin:end]), inner[1][begin:end])) for begin, end in spans]


def values(of: cqlp.ColumnArray, type: Optional[cqlp.Type] = None) -> List[Any]:
    """What `rows` has of the column."""
    found: List[Any] = []
    whole = items(of, type) if type and of.kind in ITEMS else []
    for at in range(of.cells):
        if bit(of.empties, at, False):
            found.append("" if of.kind in TEXTS else b"" if of.kind in BYTES else cqlp.EMPTY)
        else:
            found.append((whole[at] if whole else value(of, at)) if bit(of.validity, at, True) else None)
    return found


def read(data: Any, limits: cqlp.Limits = cqlp.Limits(), **words: Any) -> Tuple[List[cqlp.ArrayBatch], Any]:
    batches = []
    try:
        for found in cqlp.arrays(data, limits, **words):
            batches.append(found)
    except (cqlp.Refused, cqlp.Cut) as error:
        return batches, str(error)
    return batches, None


def read_rows(data: bytes, limits: cqlp.Limits = cqlp.Limits(), **words: Any) -> Tuple[List[Any], Any]:
    rows: List[Any] = []
    try:
        for row in cqlp.rows(data, limits, **words):
            rows.append(row)
    except (cqlp.Refused, cqlp.Cut) as error:
        return rows, str(error)
    return rows, None


def rows_of(batches: List[cqlp.ArrayBatch]) -> List[Any]:
    return [row for batch in batches for row in zip(*(values(one, one.column and one.column.type) for one in batch.arrays))]


#: 1, "abc", true; null, empty, empty; empty, null, false
SMALL = page([INT, VARCHAR, BOOLEAN], [[cell(b"\0\0\0\1"), cell(b"abc"), cell(b"\1")], [NULL, NOTHING, NOTHING], [NOTHING, NULL, cell(b"\0")]])


class Arrays(unittest.TestCase):
    def holds(self, batches: List[cqlp.ArrayBatch], rows: int) -> None:
        """What is true of all batches."""
        page, next_row = -1, 0
        for batch in batches:
            self.assertTrue(batch.count <= rows and batch.page in (page, page + 1))
            next_row = next_row if batch.page == page else 0
            self.assertEqual(batch.first, next_row)
            self.assertTrue(batch.count or not batch.first)
            page, next_row = batch.page, next_row + batch.count
            for one in batch.arrays:
                self.assertEqual(one.cells, batch.count)
                for bits in (one.validity, one.empties):
                    self.assertTrue(bits is None or len(bits) == (one.cells + 7) // 8)
                    self.assertFalse(bits is not None and one.cells % 8 and bits[-1] >> one.cells % 8)
                if one.offsets is not None:
                    size = one.items[0].cells if one.items else len(one.values)
                    self.assertEqual((len(one.offsets), one.offsets[0], one.offsets[-1]), (one.cells + 1, 0, size))

    def agrees(self, data: bytes, limits: cqlp.Limits = cqlp.Limits(), pieces: Tuple[int, ...] = (1 << 20,), rows: Tuple[int, ...] = (3, 16384)) -> None:
        wanted, ending = read_rows(data, limits)
        for most in rows:
            for piece in pieces:
                batches, end = read(data, limits, piece=piece, rows=most)
                self.holds(batches, most)
                self.assertEqual(exact(rows_of(batches)), exact(wanted))
                self.assertEqual(end, ending)

    def test_each_cut_of_a_page(self) -> None:
        whole = read(SMALL)[0]
        for rows in (1, 2, 3):
            for size in range(1, len(SMALL) + 1):
                batches, end = read(SMALL, piece=size, rows=rows)
                self.holds(batches, rows)
                self.assertEqual((rows_of(batches), end), (rows_of(whole), None))
            for length in range(len(SMALL)):
                self.agrees(SMALL[:length], rows=(rows,))
        self.assertEqual(len(read(SMALL, rows=2)[0]), 2)

    def test_arrays_of_a_page(self) -> None:
        (batch,) = cqlp.arrays(SMALL)
        self.assertEqual((batch.count, batch.first, batch.page, batch.rows, batch.paging_state), (3, 0, 0, 3, None))
        a, b, c = batch.arrays
        self.assertEqual((a.kind, a.values, a.offsets, a.validity, a.empties), (Kind.INT, b"\1" + bytes(11), None, b"\1", b"\4"))
        self.assertEqual(list(a.numbers()), [1, 0, 0])
        self.assertEqual((b.kind, b.values, list(b.offsets or ()), b.validity, b.empties), (Kind.VARCHAR, b"abc", [0, 3, 3, 3], b"\3", b"\2"))
        self.assertEqual((c.kind, c.values, c.offsets, c.validity, c.empties), (Kind.BOOLEAN, b"\1", None, b"\5", b"\2"))
        self.assertIs(batch["c1"], b)
        self.assertRaises(KeyError, lambda: batch["c3"])
        self.assertRaises(TypeError, b.numbers)
        self.assertRaises(TypeError, c.numpy)

    def test_streams(self) -> None:
        for stream in streams():
            with self.subTest(stream.name):
                if not stream.limits.parts:
                    self.agrees(stream.bytes, stream.limits, (1, 7, 1 << 20))

    def test_streams_with_a_byte_changed(self) -> None:
        for stream in streams():
            for at in range(0, len(stream.bytes), 11):
                data = bytearray(stream.bytes)
                data[at] ^= 1 << at % 8
                if stream.limits.parts:
                    continue
                try:
                    self.agrees(bytes(data), stream.limits, rows=(16384,))
                except cqlp.BadCall as error:
                    self.assertEqual(error.code, Code.TOO_MANY_COLUMNS)

    def test_pages_of_the_benchmarks(self) -> None:
        for words in (("rows", "300"), ("rows", "bare", "300"), ("columns", "5"), ("kinds", "200"), ("collections", "50")):
            data = made(*words)
            self.agrees(data, pieces=(1000, 65536), rows=(7, 300, 16384))
            self.agrees(data, cqlp.Limits(types=False))
            self.agrees(data[:-1])
            self.agrees(data + SMALL + data)

    def test_scalars(self) -> None:
        for id, content, _ in SCALARS:
            option = struct.pack(">H", id)
            for limits in (cqlp.Limits(), cqlp.Limits(types=False)):
                self.agrees(page([option], [[cell(content)], [NULL], [NOTHING]] * 50), limits, (1, 65536), (1, 8, 16384))
                self.agrees(page([option], [[cell(content)]] * 3), limits)

    def test_floats_keep_their_bits(self) -> None:
        bits = (0, 1 << 63, 0x7FF0 << 48, 0x7FF0 << 48 | 1, 0x7FF8 << 48 | 5, 0xFFF8 << 48, 1, 0x3FF0 << 48)
        (batch,) = cqlp.arrays(page([b"\0\7"], [[cell(struct.pack(">Q", one))] for one in bits]))
        self.assertEqual(struct.unpack("=8Q", batch.arrays[0].numbers().tobytes()), bits)

    def test_pages_without_rows_and_without_columns(self) -> None:
        none = page([INT, VARCHAR], [])
        batches, _ = read(none + SMALL + none)
        self.assertEqual([(one.page, one.count, len(one.arrays)) for one in batches], [(0, 0, 2), (1, 3, 3), (2, 0, 2)])
        self.assertEqual([list(one.offsets or ()) for one in batches[0].arrays], [[], [0]])
        for end in range(len(none)):
            self.assertEqual(read(none[:end], piece=1)[0], [])
        body = struct.pack(">iii", 2, 6, 0) + cell(b"st") + struct.pack(">i", 9)
        bare = struct.pack(">BBhBi", 0x84, 0, 0, 8, len(body)) + body
        (batch,) = cqlp.arrays(bare)
        self.assertEqual(batch, cqlp.ArrayBatch((), 0, 0, 0, 9, b"st"))

    def test_batches_that_are_full(self) -> None:
        """By rows, by bytes of values, and a page whose last row fills one."""
        data = page([INT, VARCHAR], [[cell(struct.pack(">i", at)), cell(b"x" * at)] for at in range(40)])
        self.agrees(data, rows=(1, 7, 8, 20, 39, 40, 41))
        self.assertEqual([one.count for one in read(data, rows=20)[0]], [20, 20])
        batches, end = read(data, memory=1000)
        self.assertTrue(len(batches) > 1 and end is None)
        self.assertEqual(rows_of(batches), list(cqlp.rows(data)))

    def test_a_value_that_is_too_long(self) -> None:
        data = page([INT, VARCHAR], [[NULL, cell(b"x" * 100)], [NULL, cell(b"x" * 126)]])
        for piece in (1, 65536):
            self.assertEqual(rows_of(read(data, memory=1008, piece=piece)[0]), list(cqlp.rows(data)))
            with self.assertRaises(cqlp.CellTooLong) as raised:
                list(cqlp.arrays(data, memory=1000, piece=piece))
            self.assertEqual((raised.exception.row, raised.exception.column), (1, 1))
        self.assertRaises(cqlp.CellTooLong, list, cqlp.arrays(made("blobs", "1"), cqlp.Limits(cell=4096, parts=True)))

    def test_values_with_items(self) -> None:
        data = page([b"\0\x20" + INT, INT], [[list_of(cell(b"\0\0\0\1"), NULL), NULL], [NULL, NOTHING], [list_of(), NULL]])
        for rows in (1, 2, 3):
            self.agrees(SMALL + data + SMALL, pieces=(1, 65536), rows=(rows,))
            for length in range(0, len(data), 5):
                self.agrees(data[:length], rows=(rows,))
        self.agrees(data, cqlp.Limits(types=False))
        (batch,) = cqlp.arrays(data)
        one = batch["c0"]
        self.assertEqual((one.kind, one.values, list(one.offsets or ()), one.validity, one.empties), (Kind.LIST, b"", [0, 2, 2, 2], b"\5", None))
        self.assertEqual([(each.kind, each.cells, each.validity) for each in one.items], [(Kind.INT, 2, b"\1")])
        self.assertEqual(pickle.loads(pickle.dumps(batch)), batch)

    @unittest.skipUnless(_arrays._compiled, "the module in C was not built")
    def test_values_with_items_by_either_way(self) -> None:
        """Without the module in C the arrays are the same, where no set and no map has equal items."""
        for stream in streams():
            if stream.limits.parts:
                continue
            for limits in (stream.limits, replace(stream.limits, types=False)):
                given = read(stream.bytes, limits, rows=3)
                with mock.patch.object(_arrays, "_compiled", None):
                    wanted = read(stream.bytes, limits, rows=3)
                for one, two in zip(given[0], wanted[0]):
                    for column, other in zip(one.arrays, two.arrays):
                        if not any(word in str(column.column) for word in ("Kind.SET", "Kind.MAP")):
                            self.assertEqual(column, other, stream.name)
                self.assertEqual((exact(rows_of(given[0])), given[1]), (exact(rows_of(wanted[0])), wanted[1]), stream.name)

    def test_columns_by_name_of_all_streams(self) -> None:
        """Those that are left out change nothing in the others, and are checked too."""
        for stream in streams():
            for limits in (replace(stream.limits, parts=False), replace(stream.limits, parts=False, types=False)):
                whole, end = read(stream.bytes, limits, rows=4)
                pages = [{one.column.name for one in batch.arrays if one.column} for batch in whole]
                names = sorted(set.intersection(*filter(None, pages)) if any(pages) else ())
                for kept in ([], names[:1], names[1:], names):
                    batches, ending = read(stream.bytes, limits, rows=4, columns=kept)
                    for one, all_of in zip(batches, whole):
                        found = tuple(each for each in all_of.arrays if each.column is None or each.column.name in kept)
                        self.assertEqual((one.arrays, one.count, one.first), (found, all_of.count, all_of.first), stream.name)
                    self.assertEqual((len(batches), ending), (len(whole), end))

    @unittest.skipUnless(_arrays._compiled, "the module in C was not built")
    def test_a_column_that_is_left_out_takes_no_memory(self) -> None:
        data = page([INT, b"\0\3", b"\0\x20" + INT], [[cell(b"\0\0\0\7"), cell(bytes(900_000)), list_of(*[NULL] * 300_000)]] * 2)
        self.assertRaises(cqlp.CellTooLong, list, cqlp.arrays(data, memory=100_000))
        tracemalloc.start()
        batches = list(cqlp.arrays(data, memory=100_000, columns=["c0"]))
        self.assertLess(tracemalloc.get_traced_memory()[1], 1_000_000)
        tracemalloc.stop()
        self.assertEqual([(batch.count, list(batch["c0"].numbers())) for batch in batches], [(2, [7, 7])])
        with self.assertRaises(cqlp.CellTooLong) as raised:
            list(cqlp.arrays(data, memory=100_000, columns=["c0", "c2"]))
        self.assertEqual((raised.exception.row, raised.exception.column), (0, 2))

    @unittest.skipUnless(_arrays._compiled, "the module in C was not built")
    def test_memory_bounds_values_with_items(self) -> None:
        data = page([b"\0\x20" + INT], [[list_of(*[cell(b"\0\0\0\1")] * (at % 40))] for at in range(2000)])
        for memory in (2_000, 10_000, 1 << 20):
            batches, end = read(data, memory=memory, rows=1 << 20)
            self.assertEqual((rows_of(batches), end), (list(cqlp.rows(data)), None))
            for batch in batches:
                one = batch.arrays[0]
                self.assertLess(8 * one.cells + len(one.items[0].values), memory)
        # a tuple of 4,000 fields that did not come takes 8 bytes of a page
        wide = b"\0\x20\0\x31" + struct.pack(">H", 4000) + INT * 4000
        many = page([wide], [[list_of(*[cell(cell(b"\0\0\0\1"))] * 20_000)]])
        tracemalloc.start()
        self.assertRaises(cqlp.CellTooLong, list, cqlp.arrays(many, memory=1 << 22))
        self.assertLess(tracemalloc.get_traced_memory()[1], 1 << 24)
        tracemalloc.stop()

    def test_parts_of_values_with_items(self) -> None:
        limits = cqlp.Limits(cell=4096, parts=True)
        long = cell(b"x" * 10_000)
        data = page([b"\0\x20\0\3", b"\0\x0d"], [[list_of(long, NULL, cell(b"y")), cell(b"t" * 4_000)], [NULL, NOTHING]])
        for rows in (1, 9):
            for piece in (1000, 1 << 20):
                batches, end = read(data, limits, rows=rows, piece=piece)
                self.assertEqual((rows_of(batches), end), ([([b"x" * 10_000, None, b"y"], "t" * 4_000), (None, "")], None))

    @unittest.skipUnless(_arrays._compiled, "the module in C was not built")
    def test_the_module_in_c_refuses_what_is_no_cell(self) -> None:
        nested, event = _arrays._compiled.Nested, _native.Event()
        for wrong in ((), ((), 1, 1), (((9, ()),), 0, 1), (((9, ()),), 1, 0), ((9,), 1, 1), (((9,),), 1, 1), (((300, ()),), 1, 1), (((32, ()),), 1, 1)):
            self.assertRaises((TypeError, ValueError), nested, *wrong)
        endless: Any = (9, ())
        for _ in range(70):
            endless = (32, (endless,))
        self.assertRaises(ValueError, nested, (endless,), 1, 1)
        place = ctypes.addressof(event)
        for call in (lambda new: new.take(1, 0, 0), lambda new: new.arrays(), lambda new: new.read(_arrays._NEXT, place, 0, 0, place, 1, place)):
            self.assertRaises(ValueError, call, nested.__new__(nested))
        begun = nested(((32, ((9, ()),)),), 9, 1 << 20)
        for places in ((0, place, place, place), (_arrays._NEXT, 0, place, place), (_arrays._NEXT, place, 0, place), (_arrays._NEXT, place, place, 0)):
            self.assertRaises(ValueError, begun.read, *places[:2], 0, 0, places[2], 1, places[3])
        handle, batch = _native.DecoderHandle(), _native.Batch()
        self.assertEqual(begun.read(_arrays._NEXT, ctypes.addressof(handle), 0, 0, place, 1, ctypes.addressof(batch)), (0, 0, int(cqlp.Code.NO_DECODER)))
        self.assertRaises(TypeError, begun.__init__, ((9, ()),), 1, 1)

        def give(tag: int, kind: int) -> None:
            event.tag, event.kind = tag, kind
            begun.take(place, 0, 1)

        for tag, kind in ((Tag.LEAVE, 0), (Tag.LEAF, 9), (Tag.ENTER, 33), (Tag.PART, 0)):
            self.assertRaises(ValueError, give, tag, kind)
        give(Tag.ENTER, 32)
        self.assertRaises(ValueError, give, Tag.LEAF, 2)
        give(Tag.LEAVE, 0)
        self.assertEqual(begun.arrays()[0], 1)

    @unittest.skipUnless(_arrays._batches, "the module in C was not built")
    def test_batches_by_either_way(self) -> None:
        """The module in C makes the same batches as Python alone, also where bits and rows are cut off."""
        pages = made("kinds", "40") + SMALL + made("rows", "bare", "9") + (BINDINGS / "pages.bin").read_bytes()
        wide = page([INT, BOOLEAN, VARCHAR] * 200, [[cell(b"\0\0\0\1"), NULL, NOTHING] * 200] * 3)
        for data in (pages, wide, pages[:-1], pages.replace(b"shop", b"sh\377p")):
            for rows in (1, 7, 8, 9, 64, 8192):
                for piece in (100, 1 << 18):
                    found = read(data, rows=rows, piece=piece)
                    with mock.patch.object(_arrays, "_batches", None):
                        self.assertEqual(found, read(data, rows=rows, piece=piece))

    @unittest.skipUnless(_arrays._batches, "the module in C was not built")
    def test_many_events_before_the_rows(self) -> None:
        """Those of frames that are no page are not in memory together."""
        batch = cqlp.messages.Query("SELECT", values=[b"x"] * 60_000)
        data = cqlp.encode(batch) + SMALL
        self.assertEqual(rows_of(read(data)[0]), list(cqlp.rows(SMALL)))
        tracemalloc.start()
        read(data)
        peak = tracemalloc.get_traced_memory()[1]
        tracemalloc.stop()
        self.assertLess(peak, 2_000_000)

    @unittest.skipUnless(_arrays._batches, "the module in C was not built")
    def test_the_module_in_c_is_given_no_columns(self) -> None:
        none = _native.Handle(0, None)
        place = ctypes.addressof(none)
        for wrong in ((0, place, 1), (_arrays._GET, 0, 1), (_arrays._GET, place, 1), (_arrays._GET, place, 0)):
            self.assertRaises(ValueError, _arrays._batches.copied, *wrong)
        self.assertRaises(TypeError, _arrays._batches.copied, "here", 1, 1)
        self.assertRaises(ValueError, _arrays._batches.before, 0, 0, 0, 0, 0, 0)

    def test_the_next_reader_has_the_arrays_of_the_last(self) -> None:
        """But none that are larger than it may have, and no more than are spared."""
        data = made("rows", "100")
        list(cqlp.arrays(data))
        (spare,) = _arrays._spare
        for words in ({}, {"rows": 7}, {"memory": 1 << 12}):
            batches = list(cqlp.arrays(data, **words))
            self.assertEqual(_arrays._spare[0] is spare, not words)
            self.assertEqual(len(_arrays._spare), 1)
            self.assertEqual(rows_of(batches), list(cqlp.rows(data)))
            self.holds(batches, words.get("rows", 100))
        long = page([VARCHAR], [[cell(b"x" * 100)]])
        list(cqlp.arrays(long))
        self.assertRaises(cqlp.CellTooLong, list, cqlp.arrays(long, cqlp.Limits(cell=99 + 1), memory=300))
        with mock.patch.object(_arrays, "_SPARE", 1000):
            _arrays._spare.clear()
            list(cqlp.arrays(data))
            self.assertEqual(_arrays._spare, [])

    def test_what_arrays_do_not_have(self) -> None:
        for words in ({"rows": 0}, {"memory": 0}):
            self.assertRaises(ValueError, cqlp.arrays, SMALL, **words)
        for name in ("column0", b"column0"):  # else each letter would be a name, and no column have it
            self.assertRaises(TypeError, cqlp.arrays, SMALL, columns=name)
        self.assertRaises(cqlp.BadLimits, list, cqlp.arrays(SMALL, cqlp.Limits(cell=1)))

    def test_columns_that_a_page_lacks(self) -> None:
        """The batches of the pages before come first."""
        first, second = page([INT, INT], [[cell(b"\0\0\0\1")] * 2]), page([INT], [[cell(b"\0\0\0\2")]])
        for data, before, number in ((second, 0, 0), (first + second, 1, 1)):
            batches = cqlp.arrays(data, columns=["c1", "c0"])
            self.assertEqual([next(batches).count for _ in range(before)], [1] * before)
            with self.assertRaises(cqlp.ColumnsMissing) as raised:
                next(batches)
            self.assertEqual((raised.exception.page, raised.exception.names), (number, ("c1",)))
            self.assertEqual(str(raised.exception), "page %d has no column 'c1': it has 'c0'" % number)

    def test_a_number_of_columns_that_lies_takes_no_memory(self) -> None:
        body = struct.pack(">iiii", 2, 4, 0x7FFFFFFF, 1)
        data = struct.pack(">BBhBi", 0x84, 0, 0, 8, 1 << 28) + body
        tracemalloc.start()
        with self.assertRaises(cqlp.BadCall) as raised:
            list(cqlp.arrays(data))
        self.assertLess(tracemalloc.get_traced_memory()[1], 2_000_000)
        tracemalloc.stop()
        self.assertEqual(raised.exception.code, Code.TOO_MANY_COLUMNS)

    def test_frames_that_are_passed_over(self) -> None:
        bad = bytearray(made("rows", "50"))
        bad[-21] = 0xFF  # the last letter of a text
        data = SMALL + bytes(bad) + SMALL
        for piece in (1, 100, 65536):
            wanted: List[cqlp.Skipped] = []
            rows, end = read_rows(data, skip=wanted.append, piece=piece)
            self.assertTrue(end is None and len(wanted) == 1)
            for most in (1, 7, 16384):
                passed: List[cqlp.Skipped] = []
                batches, end = read(data, skip=passed.append, piece=piece, rows=most)
                self.assertEqual((rows_of(batches), end, passed), (rows, None, wanted))
        self.agrees(data)

    def test_pages_without_metadata(self) -> None:
        whole = made("rows", "20")
        body = struct.pack(">iii", 2, 4, 4) + whole[-20 * 45 - 4 :]
        bare = struct.pack(">BBhBi", 0x84, 0, 0, 8, len(body)) + body
        self.agrees(bare)
        with cqlp.Types(whole) as types_of_page:
            rows = list(cqlp.rows(bare * 3 + SMALL, types=types_of_page))
            for piece in (1, 100, 65536):
                batches, _ = read(bare * 3 + SMALL, types=types_of_page, piece=piece)
                self.assertEqual(rows_of(batches), rows)
            self.assertEqual([column.kind for column in batches[0].arrays], [Kind.INT, Kind.BIGINT, Kind.VARCHAR, Kind.BOOLEAN])
            self.assertEqual(list(batches[2]["column0"].numbers()), list(range(20)))

    def test_sources(self) -> None:
        wanted = rows_of(read(SMALL * 3)[0])
        for source in (bytearray(SMALL * 3), memoryview(SMALL * 3)):
            self.assertEqual(rows_of(read(source, piece=5)[0]), wanted)
        reports: List[Any] = []
        list(cqlp.arrays(SMALL, piece=50, progress=lambda *one: reports.append(one)))
        self.assertEqual(reports, [(50, len(SMALL)), (len(SMALL), len(SMALL))])

    def test_a_batch_lives_on(self) -> None:
        data = made("rows", "100")
        batches = list(cqlp.arrays(data, rows=10))
        gc.collect()
        self.assertEqual(rows_of(batches), list(cqlp.rows(data)))

    def test_it_holds_nothing_when_it_is_let_go(self) -> None:
        data = made("kinds", "20") + SMALL

        def once() -> None:
            for part in range(41):
                read(data[: len(data) * part // 40], rows=3)
                next(cqlp.arrays(data, rows=3), None)

        once()
        gc.collect()
        tracemalloc.start()
        once()
        gc.collect()
        before = tracemalloc.get_traced_memory()[0]
        for _ in range(5):
            once()
        gc.collect()
        after = tracemalloc.get_traced_memory()[0]
        tracemalloc.stop()
        self.assertLess(after - before, 20_000)

    def test_numpy(self) -> None:
        """Where NumPy is not there, that it is asked for an array over the numbers."""
        batch = next(cqlp.arrays(BINDINGS / "pages.bin"))
        try:
            import numpy
        except ImportError:
            numpy = types.SimpleNamespace(asarray=lambda view: view)
        with mock.patch.dict(sys.modules, {"numpy": numpy}):
            self.assertEqual(list(batch["column0"].numpy()), [0, 1, 2])
