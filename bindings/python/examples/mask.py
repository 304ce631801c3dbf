"""Passes pages on from standard input to standard output, with stars in place of their texts."""

import sys
from typing import Iterable, Iterator

import cqlp
from cqlp import Field, Kind, Tag


def altered(events: Iterable[cqlp.Event]) -> Iterator[bytes]:
    """The cells keep their lengths, so their size is that of the body after the count of the rows."""
    page, end = cqlp.PageWriter(), 0
    for event in events:
        if event.tag == Tag.FRAME:
            page, end = cqlp.PageWriter(), event.at + 9 + event.number
        elif event.field == Field.ROWS:
            page.size = end - event.at - 4
        elif event.tag == Tag.LEAF and event.kind == Kind.VARCHAR:
            event = event._replace(content=b"*" * len(event.content))
        yield page.put([event])


try:
    for piece in altered(cqlp.events(sys.stdin.buffer)):
        sys.stdout.buffer.write(piece)
except (cqlp.BadEvent, cqlp.Refused, cqlp.Cut) as error:
    sys.exit(str(error))
