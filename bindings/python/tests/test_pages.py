"""Rows as Python values, and sources."""

import gzip
import io
import os
import struct
import subprocess
import sys
import tempfile
import unittest
from datetime import date, datetime, time, timezone
from decimal import Context, Decimal
from ipaddress import ip_address
from unittest import mock
from uuid import UUID

import cqlp
from cqlp import _pages

from .streams import BINDINGS

COMPILED = [_pages._compiled, None] if _pages._compiled else [None]


def cell(content: bytes) -> bytes:
    return struct.pack(">i", len(content)) + content


def text(word: bytes) -> bytes:
    return struct.pack(">H", len(word)) + word


def page(columns: list, rows: list) -> bytes:
    """A page of these columns, each a type option, and of these rows, each the bytes of its cells."""
    specs = b"".join(text(b"c%d" % at) + option for at, option in enumerate(columns))
    body = struct.pack(">iii", 2, 1, len(columns)) + text(b"k") + text(b"t") + specs
    body += struct.pack(">i", len(rows)) + b"".join(map(b"".join, rows))
    return struct.pack(">BBhBi", 0x84, 0, 0, 8, len(body)) + body


def made(*words: str) -> bytes:
    """A page of bench/pages.py."""
    script = BINDINGS.parent / "bench" / "pages.py"
    return subprocess.run([sys.executable, script, *words], stdout=subprocess.PIPE, check=True).stdout


NULL, NOTHING = struct.pack(">i", -1), cell(b"")
U16 = bytes(range(16))
V1 = bytes.fromhex("00010203040510078809000000000000")

SCALARS = [
    (0x01, b"a~", "a~"),
    (0x02, b"\xff" * 8, -1),
    (0x03, b"\0\xff", b"\0\xff"),
    (0x04, b"\x02", True),
    (0x05, struct.pack(">q", 7), 7),
    (0x06, struct.pack(">i", 2) + b"\x30\x39", Decimal("123.45")),
    (0x06, struct.pack(">i", -3) + b"\xff", Decimal("-1E+3")),
    (0x06, struct.pack(">i", 0) + b"\x7f" * 40, Decimal(int.from_bytes(b"\x7f" * 40, "big"))),
    (0x07, struct.pack(">d", 1.5), 1.5),
    (0x08, struct.pack(">f", -0.25), -0.25),
    (0x09, b"\x80\0\0\0", -(1 << 31)),
    (0x0B, struct.pack(">q", 1_000), datetime(1970, 1, 1, 0, 0, 1, tzinfo=timezone.utc)),
    (0x0B, struct.pack(">q", 253_402_300_799_999), datetime(9999, 12, 31, 23, 59, 59, 999_000, timezone.utc)),
    (0x0B, struct.pack(">q", 253_402_300_800_000), cqlp.Milliseconds(253_402_300_800_000)),
    (0x0B, struct.pack(">q", -62_135_596_800_000), datetime(1, 1, 1, tzinfo=timezone.utc)),
    (0x0B, struct.pack(">q", -62_135_596_800_001), cqlp.Milliseconds(-62_135_596_800_001)),
    (0x0C, U16, UUID(bytes=U16)),
    (0x0D, "é".encode(), "é"),
    (0x0E, b"\xff\x7f", -129),
    (0x0E, b"\x01" + b"\0" * 40, 1 << 320),
    (0x0F, V1, UUID(bytes=V1)),
    (0x10, bytes([127, 0, 0, 1]), ip_address("127.0.0.1")),
    (0x10, U16, ip_address("1:203:405:607:809:a0b:c0d:e0f")),
    (0x11, struct.pack(">I", (1 << 31) + 19_000), date(2022, 1, 8)),
    (0x11, struct.pack(">I", (1 << 31) - 719_162), date(1, 1, 1)),
    (0x11, struct.pack(">I", (1 << 31) - 719_163), cqlp.Days(-719_163)),
    (0x11, struct.pack(">I", (1 << 31) + 2_932_896), date(9999, 12, 31)),
    (0x11, struct.pack(">I", (1 << 31) + 2_932_897), cqlp.Days(2_932_897)),
    (0x12, struct.pack(">q", 86_399_999_999_999), cqlp.Nanoseconds(86_399_999_999_999)),
    (0x13, b"\x80\0", -32768),
    (0x14, b"\xff", -1),
]

INT, VARCHAR = b"\0\x09", b"\0\x0d"


def list_of(*items: bytes) -> bytes:
    return cell(struct.pack(">i", len(items)) + b"".join(items))


def map_of(*items: bytes) -> bytes:
    return cell(struct.pack(">i", len(items) // 2) + b"".join(items))


# of types that are numbers, times and addresses: contents that they do not have, some of which are digits
ODD = [
    (0x02, b"123"),
    (0x04, b"\0\x01"),
    (0x05, b"1"),
    (0x06, b"\0\0\0\x01"),
    (0x07, struct.pack(">f", 1.5)),
    (0x08, struct.pack(">d", 1.5)),
    (0x09, b"123"),
    (0x0B, b"123"),
    (0x0C, U16[1:]),
    (0x0F, U16),
    (0x10, b"1.2.3"),
    (0x11, b"1"),
    (0x12, struct.pack(">q", 86_400_000_000_000)),
    (0x13, b"1"),
    (0x14, b"12"),
    (0x01, b"\xff"),
    (0x0D, b"\xed\xa0\x80"),
]


class Values(unittest.TestCase):
    def test_scalars(self) -> None:
        for id, content, value in SCALARS:
            (row,) = cqlp.rows(page([struct.pack(">H", id)], [[cell(content)]]))
            self.assertEqual(row, (value,))
            self.assertIs(type(row[0]), type(value))
        custom = page([b"\0\0" + text(b"C")], [[cell(b"\x01")], [NULL], [NOTHING]])
        self.assertEqual(list(cqlp.rows(custom)), [(b"\x01",), (None,), (b"",)])
        self.assertEqual(cqlp.Nanoseconds(86_399_999_999_999).time(), time(23, 59, 59, 999_999))

    def test_a_content_that_its_type_does_not_have_is_bytes(self) -> None:
        for id, content in ODD:
            option = struct.pack(">H", id)
            columns = [option, b"\0\x20" + option, b"\0\x21" + option + INT]
            data = page(columns, [[cell(content), list_of(cell(content)), map_of(cell(content), cell(b"\0\0\0\x07"))]])
            with self.assertRaises(cqlp.Refused):
                list(cqlp.rows(data))
            for compiled in COMPILED:
                with mock.patch.object(_pages, "_compiled", compiled):
                    (row,) = cqlp.rows(data, lenient=True)
                self.assertEqual(row, (content, [content], {content: 7}))

    def test_bytes_after_the_last_field(self) -> None:
        """An item more of a tuple, and of a udt a value whose name has no letters, in whatever parts they come."""
        pair = b"\0\x31\0\x02" + INT + VARCHAR
        person = b"\0\x30" + text(b"k") + text(b"person") + b"\0\x01" + text(b"age") + INT
        none = b"\0\x30" + text(b"k") + text(b"none") + b"\0\0"
        seven, rest = cell(b"\0\0\0\x07"), bytes(range(70))
        data = page(
            [pair, person, b"\0\x20" + person, none, INT],
            [
                [cell(seven + NULL + rest), cell(seven + rest), list_of(cell(seven), cell(NULL + b"\0")), cell(b"\x01"), seven],
                [cell(seven), cell(seven), list_of(), NULL, seven],
            ],
        )
        wanted = [
            ((7, None, rest), {"age": 7, "": rest}, [{"age": 7}, {"age": None, "": b"\0"}], {"": b"\x01"}, 7),
            ((7, None), {"age": 7}, [], None, 7),
        ]
        with self.assertRaises(cqlp.Refused):
            list(cqlp.rows(data))
        for compiled in COMPILED:
            with mock.patch.object(_pages, "_compiled", compiled):
                for limits in (cqlp.Limits(), cqlp.Limits(cell=32)):
                    for piece in (1, 65536):
                        self.assertEqual(list(cqlp.rows(data, limits, piece=piece, lenient=True)), wanted)
                self.assertEqual(list(next(cqlp.frames(data, lenient=True)).message.rows), wanted)

    def test_a_type_that_no_kind_has(self) -> None:
        data = page([b"\0\x15", b"\0\x20\0\x15", INT], [[cell(b"\0\0\0\x07"), list_of(cell(b"7"), NULL), cell(b"\0\0\0\x07")]])
        with self.assertRaises(cqlp.Refused):
            list(cqlp.rows(data))
        for compiled in COMPILED:
            with mock.patch.object(_pages, "_compiled", compiled):
                (found,) = cqlp.Pages(data, lenient=True)
                self.assertEqual([str(column.type) for column in found.columns], ["raw", "list<raw>", "int"])
                self.assertEqual(list(cqlp.rows(data, lenient=True)), [(b"\0\0\0\x07", [b"7", None], 7)])

    def test_a_long_decimal_is_exact(self) -> None:
        for sign in (1, -1):
            number = sign * int.from_bytes(bytes(range(1, 101)) * 400, "big")
            content = struct.pack(">i", 1) + number.to_bytes(40_001, "big", signed=True)
            ((value,),) = cqlp.rows(page([b"\0\x06"], [[cell(content)]]))
            self.assertEqual(value, Decimal(number).scaleb(-1, Context(prec=200_000)))

    def test_null_and_empty(self) -> None:
        for id in {id for id, _, _ in SCALARS}:
            empty = {0x01: "", 0x0D: "", 0x03: b""}.get(id, cqlp.EMPTY)
            stream = page([struct.pack(">H", id)], [[NULL], [NOTHING]])
            self.assertEqual(list(cqlp.rows(stream)), [(None,), (empty,)])

    def test_collections(self) -> None:
        one, two, word = cell(b"\0\0\0\x01"), cell(b"\0\0\0\x02"), cell(b"w")
        pair = b"\0\x31\0\x02" + INT + VARCHAR
        person = b"\0\x30" + text(b"k") + text(b"person") + b"\0\x02" + text(b"age") + INT + text(b"name") + VARCHAR
        columns = [
            b"\0\x20" + INT,
            b"\0\x22\0\x20" + INT,
            b"\0\x21" + VARCHAR + b"\0\x21" + INT + INT,
            pair,
            person,
            b"\0\x20" + person,
        ]
        rows = [
            [
                list_of(one, NULL, NOTHING),
                list_of(list_of(two), list_of(one, two)),
                cell(b"\0\0\0\x01" + word + cell(b"\0\0\0\x01" + one + two)),
                cell(one + word),
                cell(one + word),
                list_of(cell(one), NULL),
            ],
            [NULL, list_of(), NOTHING, cell(one), cell(one), list_of()],
        ]
        (found,) = cqlp.Pages(page(columns, rows))
        self.assertEqual(
            [str(column.type) for column in found.columns],
            ["list<int>", "set<list<int>>", "map<varchar, map<int, int>>", "tuple<int, varchar>", "k.person", "list<k.person>"],
        )
        self.assertEqual(
            list(cqlp.rows(page(columns, rows), piece=1)),
            [
                (
                    [1, None, cqlp.EMPTY],
                    {(2,), (1, 2)},
                    {"w": {1: 2}},
                    (1, "w"),
                    {"age": 1, "name": "w"},
                    [{"age": 1, "name": None}, None],
                ),
                (None, set(), cqlp.EMPTY, (1, None), {"age": 1, "name": None}, []),
            ],
        )

    def test_keys_that_python_cannot_hash(self) -> None:
        one = cell(b"\0\0\0\x01")
        columns = [b"\0\x21\0\x22" + INT + INT, b"\0\x22\0\x21" + INT + INT]
        rows = [[cell(b"\0\0\0\x01" + list_of(one) + one), list_of(cell(b"\0\0\0\x01" + one + one))]]
        self.assertEqual(list(cqlp.rows(page(columns, rows))), [({frozenset({1}): 1}, {((1, 1),)})])

    def test_raw_and_parts(self) -> None:
        blob = bytes(range(100))
        stream = page([b"\0\x03"], [[cell(blob)]])
        self.assertEqual(list(cqlp.rows(stream, cqlp.Limits(cell=32, parts=True), piece=5)), [(blob,)])
        raw = page([INT], [[cell(b"ab")], [NULL], [NOTHING]])
        self.assertEqual(list(cqlp.rows(raw, cqlp.Limits(types=False))), [(b"ab",), (None,), (b"",)])
        undescribed = bytes.fromhex("8400000008000000190000000200000004000000020000000100000001" "07ffffffff")
        (found,) = cqlp.Pages(undescribed)
        self.assertEqual((found.columns, found.width, found.count), ((), 2, 1))
        self.assertEqual(list(cqlp.rows(undescribed)), [(b"\x07", None)])


class Pages(unittest.TestCase):
    def test_pages_of_the_benchmarks(self) -> None:
        rows = list(cqlp.rows(made("rows", "5000"), piece=1000))
        self.assertEqual(rows, [(i, i * 1_000_003, "%016d" % i, bool(i & 1)) for i in range(5000)])
        rows = list(cqlp.rows(made("collections", "500")))
        self.assertEqual(
            rows, [(list(range(i, i + 8)), {"%016d" % (i + k): k for k in range(3)}) for i in range(500)]
        )
        rows = list(cqlp.rows(made("columns", "20")))
        self.assertEqual(rows, [tuple(range(i, i + 200)) for i in range(20)])
        blob = bytes(range(256)) * 4096
        self.assertEqual(list(cqlp.rows(made("blobs", "2"))), [(blob,), (blob,)])

    def test_pages_are_apart(self) -> None:
        stream = (BINDINGS / "pages.bin").read_bytes()
        counts = []
        for found in cqlp.Pages(stream):
            counts.append((found.count, len(found.columns), len(list(found)), len(list(found))))
        self.assertEqual(counts, [(3, 4, 3, 0), (2, 2, 2, 0)])
        pages = cqlp.Pages(stream)
        first, second = next(pages), next(pages)
        self.assertEqual(first.columns[0][:3], ("shop", "orders", "column0"))
        self.assertEqual((list(first), len(list(second)), next(pages, None)), ([], 2, None))

    def test_rows_before_a_refusal_and_a_cut(self) -> None:
        stream = (BINDINGS / "pages.bin").read_bytes()
        for bad, error in ((b"\x03" * 9, cqlp.Refused), (stream[:20], cqlp.Cut)):
            rows = []
            with self.assertRaises(error):
                for row in cqlp.rows(stream + bad):
                    rows.append(row)
            self.assertEqual(len(rows), 5)

    def test_rows_without_columns_cost_nothing(self) -> None:
        stream = bytes.fromhex("84000000080000001000000002000000040000000000000000")[:-4] + b"\x7f\xff\xff\xff"
        (found,) = cqlp.Pages(stream)
        self.assertEqual((found.width, found.count, list(cqlp.rows(stream))), (0, 2_147_483_647, []))


class Sources(unittest.TestCase):
    def test_progress_over_a_file(self) -> None:
        path, reports = BINDINGS / "pages.bin", []
        size = path.stat().st_size
        count = len(list(cqlp.rows(path, piece=100, progress=lambda *numbers: reports.append(numbers))))
        self.assertEqual(count, 5)
        self.assertEqual(reports, [(min(read, size), size) for read in range(100, size + 100, 100)])
        with open(path, "rb") as file:
            self.assertEqual(len(list(cqlp.rows(file))), 5)
        self.assertEqual(len(list(cqlp.rows(str(path)))), 5)

    def test_a_pipe_has_no_total(self) -> None:
        reports = []
        reader, writer = os.pipe()
        os.write(writer, (BINDINGS / "pages.bin").read_bytes())
        os.close(writer)
        with open(reader, "rb") as file:
            self.assertEqual(len(list(cqlp.rows(file, progress=lambda *numbers: reports.append(numbers)))), 5)
        self.assertEqual(reports, [(613, None)])

    def test_other_files(self) -> None:
        stream, reports = (BINDINGS / "pages.bin").read_bytes(), []
        self.assertEqual(len(list(cqlp.rows(io.BytesIO(stream), progress=lambda *numbers: reports.append(numbers)))), 5)
        packed = gzip.GzipFile(fileobj=io.BytesIO(gzip.compress(stream)))
        self.assertEqual(len(list(cqlp.rows(packed, progress=lambda *numbers: reports.append(numbers)))), 5)
        self.assertEqual(reports, [(613, 613), (613, None)])

    def test_a_read_that_fails(self) -> None:
        class Broken(io.RawIOBase):
            def read(self, size: int = -1) -> bytes:
                raise OSError("broken")

        self.assertRaises(OSError, list, cqlp.events(Broken()))
        with tempfile.TemporaryDirectory() as folder:
            self.assertRaises(OSError, list, cqlp.events(os.path.join(folder, "none")))
