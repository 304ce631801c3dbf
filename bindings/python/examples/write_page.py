"""Writes a page of this many orders to standard output, 500 at a time: python3 write_page.py ORDERS"""

import itertools
import sys
from typing import Iterator

import cqlp
from cqlp import messages


def cells(rows: int) -> Iterator[cqlp.Event]:
    for row in range(rows):
        yield from cqlp.cell_events("int", row, row, 0)
        yield from cqlp.cell_events("text", "order %d" % row, row, 1)


rows = int(sys.argv[1])
none = messages.Rows.of([("id", "int"), ("item", "text")], [], keyspace="shop", table="orders")
*head, count, end = cqlp.events(cqlp.encode(none, stream=3))
with cqlp.PageWriter(cqlp.cells_size(cells(rows))) as page:
    sys.stdout.buffer.write(page.put([*head, count._replace(number=rows)]))
    rest = cells(rows)
    while some := list(itertools.islice(rest, 1000)):
        sys.stdout.buffer.write(page.put(some))
    page.end()
