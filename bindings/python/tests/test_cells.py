"""The module in C makes the rows that Python makes. Where it is not built, nothing of it is tested."""

import gc
import struct
import tracemalloc
import unittest
import weakref
from typing import Any, Tuple
from unittest import mock

import cqlp
from cqlp import _pages

from .streams import BINDINGS, streams
from .test_pages import INT, NOTHING, NULL, SCALARS, VARCHAR, cell, list_of, made, page, text

PAGE = (BINDINGS / "pages.bin").read_bytes()


def read(data: bytes, limits: cqlp.Limits, piece: int, compiled: Any) -> Tuple[list, Any]:
    """The pages of a stream with their rows, and how it ends."""
    pages = []
    with mock.patch.object(_pages, "_compiled", compiled):
        try:
            for found in cqlp.Pages(data, limits, piece=piece):
                rows = []
                pages.append((found.columns, found.width, found.count, found.paging_state, rows))
                for row in found:
                    rows.append(row)
        except (cqlp.Refused, cqlp.Cut) as error:
            events = error.events if isinstance(error, cqlp.Refused) else None
            return pages, (type(error), str(error), events)
    return pages, None


def exact(value: Any) -> Any:
    """A value with its type and, of a float, its bytes: so values of two types differ that are equal, and NaN equals itself."""
    if isinstance(value, float):
        return struct.pack(">d", value)
    if isinstance(value, (list, tuple)):
        return type(value), [exact(item) for item in value]
    if isinstance(value, dict):
        return dict, [(exact(key), exact(item)) for key, item in value.items()]
    if isinstance(value, (set, frozenset)):
        return type(value), sorted(repr(exact(item)) for item in value)
    return type(value), repr(value)


@unittest.skipUnless(_pages._compiled, "the module in C is not built")
class Cells(unittest.TestCase):
    def same(self, data: bytes, limits: cqlp.Limits = cqlp.Limits(), pieces: Tuple[int, ...] = (1 << 20,)) -> None:
        for piece in pieces:
            pages, end = read(data, limits, piece, _pages._compiled)
            wanted, wanted_end = read(data, limits, piece, None)
            self.assertEqual(exact(pages), exact(wanted))
            self.assertEqual(end, wanted_end)

    def test_rows_one_by_one(self) -> None:
        """They are let go of by `close`, and with what they are in, also where that is a cycle."""
        for compiled in (_pages._compiled, None):
            with mock.patch.object(_pages, "_compiled", compiled):
                rows = cqlp.rows(PAGE)
                self.assertEqual((iter(rows) is rows, len(next(rows))), (True, 4))
                rows.close()
                rows.close()
                self.assertEqual(list(rows), [])

                class Held:
                    def __call__(self, *_: Any) -> None:
                        pass

                held = Held()
                gone = weakref.ref(held)
                held.rows = cqlp.rows(PAGE, progress=held)
                next(held.rows)
                del held
                gc.collect()
                self.assertIsNone(gone())
        if _pages._compiled:
            made = _pages._compiled.Rows
            for wrong in ((), (1,), ([], [])):
                self.assertRaises(TypeError, made, *wrong)
            self.assertRaises(TypeError, made, found=[])
            self.assertEqual((list(made([5, [1, 2], [], "x", [3]])), list(made.__new__(made))), ([1, 2, 3], []))
            begun = made(iter(()))
            self.assertRaises(TypeError, begun.__init__, [])
            self.assertRaises(AttributeError, begun.close)

    def test_rows_of_plain_values_are_not_tracked(self) -> None:
        """The collector of cycles need not look at them; a row with a list is looked at."""
        wide = page([INT, VARCHAR], [[cell(b"\0\0\1\0"), cell(b"abc")], [NULL, NOTHING]])
        if _pages._compiled:
            self.assertEqual([gc.is_tracked(row) for row in cqlp.rows(wide)], [False, False])
        self.assertEqual([gc.is_tracked(row) for row in cqlp.rows(page([INT, b"\0\x20" + INT], [[NULL, list_of(NULL)]]))], [True])

    def test_rows_with_values_of_each_sort(self) -> None:
        """Rows of scalars and nulls are made at once, the others cell by cell; of a batch the last row may be cut."""
        for wide in (1, 3, 300, 1500):
            row, nulls = [cell(struct.pack(">i", 1 << 20))] * wide, [NULL] * wide
            rows = [row, nulls, row[1:] + [NOTHING], [NOTHING] * wide, row[1:] + [NULL], row] * 20
            self.same(page([INT] * wide, rows), pieces=(999, 1 << 20))

    def test_what_cannot_be_read(self) -> None:
        """Where nothing lies, nothing is read."""
        cells = _pages._compiled.Cells(1, (), [], None, None)
        for at in (0, 1, 4, 6):
            words = [1, 1, 1, 0, 1, 1, 1]
            words[at] = 0
            self.assertRaises(ValueError, cells.read, *words)
        self.assertRaises(TypeError, cells.read, "next", 1, 1, 0, 1, 1, 1)
        self.assertRaises(TypeError, cells.read, 1)

    def test_streams(self) -> None:
        for stream in streams():
            with self.subTest(stream.name):
                self.same(stream.bytes, stream.limits, (1, 7, 1 << 20))

    def test_streams_with_a_byte_changed(self) -> None:
        for stream in streams():
            for at in range(0, len(stream.bytes), 3):
                data = bytearray(stream.bytes)
                data[at] ^= 1 << at % 8
                self.same(bytes(data), stream.limits)

    def test_pages_of_the_benchmarks(self) -> None:
        for words in (("rows", "300"), ("rows", "bare", "300"), ("collections", "100"), ("columns", "5"), ("blobs", "2")):
            self.same(made(*words), pieces=(1000, 65536))
        self.same(made("kinds", "700"), pieces=(11, 65536))
        self.same(made("blobs", "1"), cqlp.Limits(cell=4096, parts=True), (1000, 65536))

    def test_scalars(self) -> None:
        for id, content, _ in SCALARS:
            for limits in (cqlp.Limits(), cqlp.Limits(types=False)):
                self.same(page([struct.pack(">H", id)], [[cell(content)], [NULL], [NOTHING]]), limits, (1, 65536))

    def test_numbers_at_their_ends(self) -> None:
        for length in range(1, 18):
            for number in (0, 1, (1 << 8 * length - 1) - 1, -(1 << 8 * length - 1), -1):
                self.same(page([b"\0\x0e"], [[cell(number.to_bytes(length, "big", signed=True))]]))
        for bits in (0, 1 << 63, 0x7FF0 << 48, 0x7FF8 << 48 | 5, 0xFFF8 << 48, 1, 0x3FF0 << 48):
            self.same(page([b"\0\x07"], [[cell(struct.pack(">Q", bits))]]))
        for bits in (0, 1 << 31, 0x7F80 << 16, 0x7FC0 << 16 | 5, 0xFFC0 << 16, 1, 0x3F80 << 16):
            self.same(page([b"\0\x08"], [[cell(struct.pack(">I", bits))]]))

    def test_values_in_values(self) -> None:
        one, two, word = cell(b"\0\0\0\x01"), cell(b"\0\0\0\x02"), cell(b"w")
        pair = b"\0\x31\0\x02" + INT + VARCHAR
        person = b"\0\x30" + text(b"k") + text(b"person") + b"\0\x02" + text(b"age") + INT + text(b"name") + VARCHAR
        twice = b"\0\x30" + text(b"k") + text(b"twice") + b"\0\x02" + text(b"a") + INT + text(b"a") + INT
        of_two = list_of(one, one)
        pairs = cell(b"\0\0\0\x02" + one + two + one + NULL)
        columns = [
            b"\0\x22" + INT,
            b"\0\x22\0\x20" + INT,
            b"\0\x22\0\x22" + INT,
            b"\0\x21" + INT + INT,
            b"\0\x21\0\x21" + INT + INT + b"\0\x20" + INT,
            b"\0\x22" + pair,
            b"\0\x21" + person + person,
            twice,
            b"\0\x20" + b"\0\x22" + VARCHAR,
        ]
        rows = [
            [
                of_two,
                list_of(of_two, list_of(), NULL, NOTHING),
                list_of(of_two, list_of()),
                pairs,
                cell(b"\0\0\0\x01" + pairs + of_two),
                list_of(cell(one + word), cell(one), NULL),
                cell(b"\0\0\0\x01" + cell(one + word) + cell(one)),
                cell(one + two),
                list_of(list_of(word, word, NOTHING), NULL, NOTHING),
            ],
            [NULL] * 9,
            [NOTHING] * 9,
        ]
        self.same(page(columns, rows), pieces=(1, 2, 3, 65536))

    def test_it_holds_nothing_when_it_is_let_go(self) -> None:
        data = made("collections", "50") + made("kinds", "20")
        cuts = [data[: len(data) * part // 40] for part in range(40)]

        def once() -> None:
            for cut in cuts:
                read(cut, cqlp.Limits(), 1 << 20, _pages._compiled)

        once()
        gc.collect()
        tracemalloc.start()
        once()
        gc.collect()
        before = tracemalloc.get_traced_memory()[0]
        for _ in range(5):
            once()
        gc.collect()
        after = tracemalloc.get_traced_memory()[0]
        tracemalloc.stop()
        self.assertLess(after - before, 20_000)

    def test_pages_given_up(self) -> None:
        data = (BINDINGS / "pages.bin").read_bytes()
        for compiled in (_pages._compiled, None):
            with mock.patch.object(_pages, "_compiled", compiled):
                pages = cqlp.Pages(data)
                first = next(pages)
                one, two = iter(first), iter(first)
                taken = [next(one), next(two), next(first)]
                self.assertEqual([row[0] for row in taken], [0, 1, 2])
                self.assertEqual((list(one), list(two), list(first)), ([], [], []))
                second = next(pages)
                next(iter(second))
                self.assertIsNone(next(pages, None))
                self.assertEqual((list(second), list(first)), ([], []))
