"""What the package raises and gives goes to another process and back."""

import concurrent.futures
import copy
import pickle
import unittest
from typing import Any, List

import cqlp

from .streams import BINDINGS

PAGES = (BINDINGS / "pages.bin").read_bytes()
RAISED = (
    cqlp.Error("a text"),
    cqlp.BadLimits("cell"),
    cqlp.BadCall(cqlp.Code.FULL),
    cqlp.BadValue(5, "a str is wanted").within("Query.query"),
    cqlp.BadEvent(cqlp.Code.NO_EVENT, 1, cqlp.Event(tag=cqlp.Tag.TEXT, content=b"\xff")),
    cqlp.CellTooLong(3, 4),
    cqlp.Closed("the page"),
    cqlp.ColumnsMissing(1, ("nope",), ("id", "name")),
    cqlp.Cut(9, 12),
    cqlp.FrameTooLong(5, 1 << 20),
    cqlp.InUse(),
    cqlp.Refused(14, cqlp.Reason.BAD_VERSION, [cqlp.Event(at=9)], b"rest", b"header"),
    cqlp.ValuesMissing(2, "the column 'n'"),
)


def read(data: bytes) -> List[Any]:
    return [list(cqlp.rows(data)), list(cqlp.arrays(data[:218])), list(cqlp.columns(data)), list(cqlp.frames(data)), list(cqlp.events(data))]


class Pickles(unittest.TestCase):
    def test_exceptions(self) -> None:
        named = {one for one in map(cqlp.__dict__.get, cqlp.__all__) if isinstance(one, type) and issubclass(one, cqlp.Error)}
        self.assertEqual({type(error) for error in RAISED}, named)
        for error in RAISED:
            for again in (pickle.loads(pickle.dumps(error)), copy.copy(error), copy.deepcopy(error)):
                self.assertEqual((type(again), str(again), vars(again)), (type(error), str(error), vars(error)))

    def test_a_worker_process(self) -> None:
        with concurrent.futures.ProcessPoolExecutor(1) as pool:
            self.assertEqual(pool.submit(read, PAGES).result(60), read(PAGES))
            with self.assertRaises(cqlp.Cut) as cut:
                pool.submit(read, PAGES[:300]).result(60)
            self.assertEqual((cut.exception.at, cut.exception.bytes), (218, 300))
            self.assertEqual(pool.submit(len, PAGES).result(60), len(PAGES))

    def test_values_of_the_package(self) -> None:
        for value in (cqlp.EMPTY, cqlp.UNSET):
            self.assertIs(pickle.loads(pickle.dumps(value)), value)
        for value in (cqlp.check(PAGES), cqlp.Limits(cell=99), cqlp.Days(-(10**6)), cqlp.Ticket(1, 2)):
            again = pickle.loads(pickle.dumps(value))
            self.assertEqual((type(again), again), (type(value), value))
