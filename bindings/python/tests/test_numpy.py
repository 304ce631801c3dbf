"""Columns with nulls as arrays of NumPy. bindings/test runs this by a Python that has NumPy, where there is one."""

import random
import struct
import sys
import types
import unittest
from typing import Any, List, Optional
from unittest import mock

import cqlp

from .streams import BINDINGS

try:
    import numpy
except ImportError:
    numpy = None


def page(cells: List[Optional[int]]) -> bytes:
    """A page with a column `n` of the type int."""
    body = struct.pack(">iiiH1sH1sH1sHi", 2, 1, 1, 1, b"k", 1, b"t", 1, b"n", 9, len(cells))
    for cell in cells:
        body += struct.pack(">i", -1) if cell is None else struct.pack(">ii", 4, cell)
    return struct.pack(">BBhBi", 0x84, 0, 0, 8, len(body)) + body


def columns(data: bytes) -> List[Any]:
    return [next(cqlp.columns(data))["n"], next(cqlp.arrays(data))["n"]]


class Missing(unittest.TestCase):
    def test_nulls_are_no_zeros_unless_asked_for(self) -> None:
        stub = numpy or types.SimpleNamespace(asarray=lambda view: view)
        with mock.patch.dict(sys.modules, {"numpy": stub}):
            for column in columns(page([7, None, 9])):
                with self.assertRaises(cqlp.ValuesMissing) as caught:
                    column.numpy()
                self.assertEqual(caught.exception.count, 1)
                self.assertRegex(str(caught.exception), "1 values of the column 'n' are missing: pass missing=\"mask\"")
                self.assertEqual(list(column.numpy(missing="zero")), [7, 0, 9])
                self.assertRaises(ValueError, column.numpy, missing="none")
            for column in columns(page([7, 9])):
                self.assertEqual(list(column.numpy()), [7, 9])

    @unittest.skipUnless(numpy, "NumPy is not there")
    def test_masked_arrays(self) -> None:
        chance = random.Random(5)
        for count in (1, 3, 8, 9, 64, 1000, 4000):
            cells = [None if chance.random() < 0.3 else chance.randrange(-9, 10**9) for _ in range(count)]
            for column in columns(page(cells)):
                masked = column.numpy(missing="mask")
                self.assertEqual(masked.tolist(), cells)
                there = [cell for cell in cells if cell is not None]
                self.assertEqual(masked.sum() if there else 0, sum(there))
        for column in columns(page([7, None, 9])):
            self.assertEqual(column.numpy(missing="mask").mean(), 8)
        for column in columns(page([7, 9])):
            masked = column.numpy(missing="mask")
            self.assertEqual((masked.tolist(), masked.mask.any()), ([7, 9], False))

    @unittest.skipUnless(numpy, "NumPy is not there")
    def test_arrays_of_numpy_are_read(self) -> None:
        data = (BINDINGS / "pages.bin").read_bytes()
        for given in (numpy.frombuffer(data, numpy.uint8), numpy.array(bytearray(data))):
            self.assertEqual(list(cqlp.rows(given)), list(cqlp.rows(data)))
            self.assertEqual(cqlp.check(given), cqlp.check(data))
            self.assertRaises(BufferError, cqlp.check, given[::2])
        self.assertEqual(str(cqlp.check(numpy.zeros((0, 4)))), "whole 0")
