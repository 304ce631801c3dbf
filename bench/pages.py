#!/usr/bin/env python3
"""Writes a stream of one result page to standard output: pages.py rows|collections|columns|kinds|blobs [bare] [ROWS]

rows         1,000,000 rows of int, bigint, varchar of 16 letters, boolean
collections  200,000 rows of list<int> of 8 and map<varchar, int> of 3
columns      5,000 rows of 200 columns of int
kinds        50,000 rows of a column of each kind without items
blobs        96 rows of one blob of 1 MiB

A page of more than 256 MB does not fit in a frame. The same words give the same bytes. A bare page has no metadata; the
word `types` in place of ROWS writes the digits of the page without rows, whose types are those of the bare page.
"""
import struct
import sys

INT, BIGINT, BOOLEAN, BLOB, VARCHAR, LIST, MAP = 0x0009, 0x0002, 0x0004, 0x0003, 0x000D, 0x0020, 0x0021


def short(*numbers):
    return struct.pack(">%dH" % len(numbers), *numbers)


def int_(n):
    return struct.pack(">i", n)


def text16(b):
    return short(len(b)) + b


def cell(b):
    return int_(len(b)) + b


def letters(i):
    return b"%016d" % i


def scalars(i):
    return cell(int_(i)) + cell(struct.pack(">q", i * 1_000_003)) + cell(letters(i)) + cell(bytes([i & 1]))


def collections(i):
    items = int_(8) + b"".join(cell(int_(i + k)) for k in range(8))
    pairs = int_(3) + b"".join(cell(letters(i + k)) + cell(int_(k)) for k in range(3))
    return cell(items) + cell(pairs)


def columns(i):
    return b"".join(cell(int_(i + k)) for k in range(200))


# the kinds without items, with what a row has of each
KINDS = [
    (0x0001, letters),
    (BIGINT, lambda i: struct.pack(">q", i * 1_000_003 - (1 << 40))),
    (BLOB, lambda i: struct.pack(">Q", i * 0x9E3779B97F4A7C15 % (1 << 64)) * 2),
    (BOOLEAN, lambda i: bytes([i & 1])),
    (0x0005, lambda i: struct.pack(">q", i * i)),
    (0x0006, lambda i: int_(i % 9) + struct.pack(">q", i * 7919 - 5_000_000)),
    (0x0007, lambda i: struct.pack(">d", i / 7)),
    (0x0008, lambda i: struct.pack(">f", i / 3)),
    (INT, lambda i: int_(i * 7919 % 2_000_003 - 1_000_000)),
    (0x000B, lambda i: struct.pack(">q", 1_600_000_000_000 + i * 61_001)),
    (0x000C, lambda i: struct.pack(">QQ", i * 0x9E3779B97F4A7C15 % (1 << 64), i)),
    (VARCHAR, lambda i: b"name \"%d\"\n" % i if i % 16 == 0 else b"name of %d" % i),
    (0x000E, lambda i: struct.pack(">qq", i - 25_000, i)[: 9 + i % 8]),
    (0x000F, lambda i: struct.pack(">IHHQ", i, i % 65_536, 0x1000 + i % 4096, i + (1 << 63))),
    (0x0010, lambda i: struct.pack(">I", i * 40_503 % (1 << 32)) if i & 1 else struct.pack(">QQ", i, i * i)),
    (0x0011, lambda i: struct.pack(">I", (1 << 31) + i * 3 - 60_000)),
    (0x0012, lambda i: struct.pack(">q", i * 1_727_999_999 % 86_400_000_000_000)),
    (0x0013, lambda i: struct.pack(">h", i % 65_536 - 32_768)),
    (0x0014, lambda i: struct.pack(">b", i % 256 - 128)),
]


def kinds(i):
    return b"".join(int_(-1) if (i + k) % 37 == 0 else cell(make(i)) for k, (_, make) in enumerate(KINDS))


MEGABYTE = bytes(range(256)) * 4096

# the options of the columns, how many rows, one row
PAGES = {
    "rows": ([short(INT), short(BIGINT), short(VARCHAR), short(BOOLEAN)], 1_000_000, scalars),
    "collections": ([short(LIST, INT), short(MAP, VARCHAR, INT)], 200_000, collections),
    "columns": ([short(INT)] * 200, 5_000, columns),
    "kinds": ([short(kind) for kind, _ in KINDS], 50_000, kinds),
    "blobs": ([short(BLOB)], 96, lambda _: cell(MEGABYTE)),
}


def head(options, rows, bare):
    specs = b"".join(text16(b"column%d" % i) + option for i, option in enumerate(options))
    described = text16(b"shop") + text16(b"orders") + specs
    return int_(2) + int_(4 if bare else 1) + int_(len(options)) + (b"" if bare else described) + int_(rows)


def header(length):
    return struct.pack(">BBhBi", 0x84, 0, 0, 0x08, length)


def main():
    options, rows, row = PAGES[sys.argv[1]]
    words = sys.argv[2:]
    if words == ["types"]:
        described = head(options, 0, False)
        print((header(len(described)) + described).hex())
        return
    bare = words[:1] == ["bare"]
    rows = int((words[bare:] or [rows])[0])
    first = head(options, rows, bare)
    # every row of a page is as long as every other, but for those of all kinds
    length = len(first) + (sum(len(row(i)) for i in range(rows)) if row is kinds else rows * len(row(0)))
    if length > 0x10000000:
        sys.exit("longer than a frame may be")
    out = sys.stdout.buffer
    out.write(header(length) + first)
    for at in range(0, rows, 4096):
        out.write(b"".join(row(i) for i in range(at, min(at + 4096, rows))))


main()
