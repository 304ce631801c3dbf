"""What may be given as bytes, and what a file may give."""

import array
import functools
import io
import os
import unittest
from typing import Any, Callable, List

import cqlp

from .streams import BINDINGS
from .test_types import PREPARED

PAGE = (BINDINGS / "pages.bin").read_bytes()[:218]
READERS = (cqlp.rows, cqlp.events, cqlp.frames, cqlp.columns, cqlp.arrays, cqlp.Pages)
EACH: List[Callable[[Any], Any]] = [
    *(functools.partial(lambda read, data: [tuple(one) if read is cqlp.Pages else one for one in read(data)], read) for read in READERS),
    cqlp.check,
    lambda data: cqlp.Decoder().decode(data),
]


class Gives(io.RawIOBase):
    """A file whose reads give these, one after the other."""

    def __init__(self, *given: Any) -> None:
        self.given = list(given)

    def read(self, size: int = -1) -> Any:
        return self.given.pop(0)


class Buffers(unittest.TestCase):
    def test_any_buffer_is_read(self) -> None:
        of_page = (
            bytearray(PAGE),
            memoryview(PAGE),
            memoryview(bytearray(b"x" + PAGE))[1:],
            memoryview(PAGE).cast("B", (2, 109)),
            array.array("B", PAGE),
            array.array("h", PAGE),
            type("Bytes", (bytes,), {})(PAGE),
        )
        for each in EACH:
            wanted = each(PAGE)
            for given in of_page:
                self.assertEqual(each(given), wanted)
        for given in (bytearray(PREPARED), array.array("B", PREPARED)):
            self.assertEqual(cqlp.Types(given).columns, cqlp.Types(PREPARED).columns)
        for empty in (b"", bytearray(), array.array("i"), memoryview(b"")):
            self.assertEqual(str(cqlp.check(empty)), "whole 0")
            self.assertEqual(list(cqlp.rows(empty)), [])

    def test_what_is_no_row_of_bytes_is_refused(self) -> None:
        twice = bytearray(2 * len(PAGE))
        twice[::2] = PAGE
        for each in (*EACH, cqlp.Types):
            self.assertRaises(BufferError, each, memoryview(twice)[::2])
            for other in (9, None, [4, 0, 0, 0, 5, 0, 0, 0, 0], 1.5):
                self.assertRaises(TypeError, each, other)
        for given in ("abc", range(9)):
            self.assertRaises(TypeError, cqlp.check, given)
            self.assertRaises(TypeError, cqlp.Decoder().decode, given)

    def test_a_buffer_that_changes(self) -> None:
        data = bytearray(PAGE)
        with cqlp.Decoder() as decoder:
            events = decoder.decode(data)
            wanted = [str(event) for event in events]
            data[:] = bytes(len(data))
            self.assertEqual([str(event) for event in events], wanted)
            data.clear()
        for read in READERS:
            data = bytearray(PAGE)
            reader = iter(read(data, piece=100))
            self.assertRaises(BufferError, data.append, 0)
            next(reader)
            self.assertRaises(BufferError, data.clear)
            for _ in reader:
                pass
            data.append(0)


class Files(unittest.TestCase):
    def test_a_piece_has_bytes(self) -> None:
        for read in READERS:
            for piece in (0, -1):
                for source in (PAGE, io.BytesIO(PAGE), "no file"):
                    self.assertRaises(ValueError, read, source, piece=piece)

    def test_what_a_read_gives(self) -> None:
        for each in EACH[: len(READERS)]:
            wanted = each(PAGE)
            for made in (bytes, bytearray, memoryview, functools.partial(array.array, "B")):
                self.assertEqual(each(Gives(made(PAGE[:100]), made(PAGE[100:]), made(b""))), wanted)
            self.assertRaises(TypeError, each, io.StringIO("text"))
            self.assertRaises(BlockingIOError, each, Gives(PAGE, None))
            self.assertRaises(BlockingIOError, each, Gives(PAGE[:100], None))

    @unittest.skipUnless(hasattr(os, "set_blocking"), "files block here")
    def test_a_pipe_that_does_not_block(self) -> None:
        for each in EACH[: len(READERS)]:
            for ends in (False, True):
                reading, writing = os.pipe()
                os.set_blocking(reading, False)
                os.write(writing, PAGE)
                with open(reading, "rb") as file:
                    if ends:
                        os.close(writing)
                        self.assertEqual(each(file), each(PAGE))
                    else:
                        self.assertRaises(BlockingIOError, each, file)
                        os.close(writing)
