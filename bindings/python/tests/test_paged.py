"""Pages are written of their events, some cells at a time: those of bindings/streams.txt and pages.bin as `encode` writes them whole."""

import itertools
import random
import threading
import unittest
from pathlib import Path
from typing import Any, Iterator, List, Sequence, Tuple
from unittest import mock

import cqlp
from cqlp import BadEvent, Code, Event, Field, Kind, Mark, Opcode, PageWriter, Tag, _encode, cells_size

from .test_encode import COMPILED, WholeFrame, frames, mutated, refusal, spelled

CHANGES = 5_000


def is_rows(event: Event) -> bool:
    return event.tag == Tag.COUNT and event.field == Field.ROWS


def pages() -> Iterator[WholeFrame]:
    """Those that can be written, of the streams and of pages.bin."""
    data = (Path(__file__).resolve().parents[2] / "pages.bin").read_bytes()
    events = list(cqlp.events(data))
    ends = [at for at, event in enumerate(events, 1) if event.tag == Tag.END]
    parts = [tuple(events[first:last]) for first, last in zip([0] + ends, ends)]
    of_file = [WholeFrame("pages.bin", cqlp.Limits(), data[part[0].at : part[-1].at], part) for part in parts]
    for frame in itertools.chain(frames(), of_file):
        if any(map(is_rows, frame.events)) and refusal(frame) is None:
            yield frame


def in_batches(events: Sequence[Event], size: int, batch: int) -> bytes:
    with PageWriter(size) as page:
        found = b"".join(page.put(events[at : at + batch]) for at in range(0, len(events), batch))
        page.end()
    return found


def lists(row: int) -> Tuple[Event, ...]:
    return (
        Event(tag=Tag.ENTER, row=row, column=1, kind=Kind.LIST, number=2),
        Event(tag=Tag.LEAF, row=row, column=1, level=1, kind=Kind.INT, number=7),
        Event(tag=Tag.NULL, row=row, column=1, level=1),
        Event(tag=Tag.LEAVE, number=2),
    )


# A page of two rows, a text and a list of two ints in each, one of them null, and how many bytes its cells have.
PAGE = (
    Event(tag=Tag.FRAME, opcode=Opcode.RESULT, extra=7, mark=Mark.RESPONSE),
    Event(tag=Tag.INT, field=Field.RESULT_KIND, number=2),
    Event(tag=Tag.INT, field=Field.META_FLAGS, number=1),
    Event(tag=Tag.COUNT, field=Field.COLUMNS, number=2),
    Event(tag=Tag.TEXT, field=Field.KEYSPACE, content=b"k"),
    Event(tag=Tag.TEXT, field=Field.TABLE, content=b"t"),
    Event(tag=Tag.TEXT, field=Field.COLUMN_NAME, content=b"a"),
    Event(tag=Tag.TYPE_NODE, kind=Kind.VARCHAR),
    Event(tag=Tag.TEXT, field=Field.COLUMN_NAME, content=b"b"),
    Event(tag=Tag.TYPE_NODE, kind=Kind.LIST),
    Event(tag=Tag.TYPE_NODE, kind=Kind.INT),
    Event(tag=Tag.COUNT, field=Field.ROWS, number=2),
    Event(tag=Tag.LEAF, kind=Kind.VARCHAR, content=b"x"),
    *lists(0),
    Event(tag=Tag.NULL, row=1),
    *lists(1),
    Event(tag=Tag.END),
)
SIZE = 5 + 20 + 4 + 20
HEAD = len(cqlp.encode(PAGE)) - SIZE


def replaced(at: int, event: Event) -> List[Event]:
    return [*PAGE[:at], event, *PAGE[at + 1 :]]


def rows(count: int) -> Event:
    return Event(tag=Tag.COUNT, field=Field.ROWS, number=count)


class WritesPages(unittest.TestCase):
    def test_pages_in_batches(self) -> None:
        count = 0
        for page in pages():
            wanted = cqlp.encode(page.events)
            self.assertEqual(wanted, spelled(page))
            size = cells_size(page.events)
            for compiled in COMPILED:
                with mock.patch.object(_encode, "_compiled", compiled):
                    for batch in (1, 3, 64, 1 << 20):
                        self.assertEqual(in_batches(page.events, size, batch), wanted, (page.name, batch))
                        self.assertEqual(in_batches(page.events[:-1], size, batch), wanted, (page.name, batch))
            count += 1
        self.assertGreaterEqual(count, 21)

    def test_a_page_passes(self) -> None:
        """Its size is what its body has after the head, and is set when the count of the rows comes."""
        for frame in pages():
            with cqlp.Decoder(frame.limits) as decoder, PageWriter() as page:
                found = b""
                for at in range(0, len(frame.bytes), 7):
                    for event in decoder.decode(frame.bytes[at : at + 7]):
                        if is_rows(event):
                            page.size = len(frame.bytes) - event.at - 4 - frame.events[-1].number
                            self.assertEqual(page.size, cells_size(frame.events))
                        found += page.put([event])
                page.end()
            self.assertEqual(found, spelled(frame), frame.name)

    def test_cells_are_measured(self) -> None:
        nulls = [Event(tag=Tag.NULL)] * 600
        self.assertEqual(cells_size(iter(nulls)), 2400)
        self.assertEqual(cells_size([]), 0)
        self.assertEqual(sum(cells_size([event]) for event in PAGE), SIZE)
        nulls[500] = Event(tag=Tag.PART, number=1)
        with self.assertRaises(BadEvent) as bad:
            cells_size(nulls)
        self.assertEqual((bad.exception.code, bad.exception.index, bad.exception.event), (Code.UNBUILT, 500, nulls[500]))
        self.assertRaises(TypeError, cells_size, [3])

    def test_what_is_given_at_each_event(self) -> None:
        with PageWriter(SIZE) as page:
            given = [len(page.put([event])) for event in PAGE]
        self.assertEqual(given, [0] * 11 + [HEAD, 5, 0, 0, 0, 20, 4, 0, 0, 0, 20, 0])

    def test_what_is_refused(self) -> None:
        cases = (
            (1, Event(tag=Tag.INT, field=Field.RESULT_KIND, number=1), SIZE, 0, "the events together: NoSuchFrame"),
            (0, Event(tag=Tag.INT, field=Field.RESULT_KIND, number=2), SIZE, 0, "event 0, Int ResultKind: Misplaced"),
            (11, rows(1 << 31), SIZE, 0, "the events together: TooManyRows"),
            (11, rows(13), SIZE, HEAD + 49, "the events together: CellsMissing"),
            (11, rows(2), 15, HEAD + 5, "event 16, Leave: PastSize"),
            (11, rows(2), 1 << 40, 0, "the events together: BadLength"),
            (11, rows(2), 1 << 70, 0, "the events together: BadLength"),
            (11, rows(2), -1, 0, "the events together: BadLength"),
            (11, rows(-1), SIZE, 0, "event 11, Count Rows: NoEvent"),
            (11, Event(tag=Tag.END), SIZE, 0, "event 11, End: NoRows"),
            (11, rows(2), SIZE + 1, HEAD + 49, "the events together: BytesMissing"),
            (11, rows(2), SIZE - 1, HEAD + 29, "event 21, Leave: PastSize"),
            (11, rows(3), SIZE, HEAD + 49, "the events together: CellsMissing"),
            (11, rows(1), SIZE, HEAD + 25, "event 17, Null: Misplaced"),
            (17, Event(tag=Tag.NULL), SIZE, HEAD + 25, "event 17, Null: Misplaced"),
            (17, rows(2), SIZE, HEAD + 25, "event 17, Count Rows: Misplaced"),
            (17, Event(tag=Tag.PART, row=1), SIZE, HEAD + 25, "event 17, Part: Unbuilt"),
            (17, Event(tag=Tag.LEAF, row=1, kind=99), SIZE, HEAD + 25, "event 17, Leaf: NoEvent"),
            (12, Event(tag=Tag.LEAF, kind=Kind.INT), SIZE, HEAD, "event 12, Leaf: NoValue"),
            (21, Event(tag=Tag.LEAVE, number=3), SIZE, HEAD + 29, "event 21, Leave: NoValue"),
            (21, Event(tag=Tag.END), SIZE, HEAD + 29, "the events together: NotEnded"),
            (18, Event(tag=Tag.END), SIZE, HEAD + 29, "the events together: CellsMissing"),
        )
        for at, event, size, length, words in cases:
            events = replaced(at, event)
            found, error = self.refused(events, size)
            self.assertEqual((len(found), str(error)), (length, words))
            self.assertEqual(error.event, events[error.index] if "event " in words else None)
            with PageWriter(size) as page, self.assertRaises(BadEvent) as bad:
                page.put(events)  # all at once: an end that is not the last event is none
            self.assertEqual(bad.exception.code, Code.MISPLACED if event.tag == Tag.END and at > 11 else error.code)

    def refused(self, events: List[Event], size: int) -> Tuple[bytes, BadEvent]:
        """What is given of a page before it is refused, and why it is."""
        page, found = PageWriter(size), b""
        with self.assertRaises(BadEvent) as bad:
            for event in events:
                found += page.put([event])
            page.end()
        self.assertRaises(cqlp.Closed, page.put, PAGE[:1])
        self.assertRaises(cqlp.Closed, page.end)
        return found, bad.exception

    def test_cells_that_are_missing(self) -> None:
        for count, code in ((0, Code.MISPLACED), (5, Code.NO_ROWS), (12, Code.CELLS_MISSING), (15, Code.NOT_ENDED), (17, Code.CELLS_MISSING)):
            self.assertEqual(self.refused(list(PAGE[:count]), SIZE)[1].code, code, count)

    def test_after_the_end(self) -> None:
        for events in (PAGE, PAGE[:-1]):
            page = PageWriter(SIZE)
            self.assertEqual(page.put(events), cqlp.encode(PAGE))
            page.end()
            page.end()
            for event in (PAGE[0], PAGE[12]):
                with self.assertRaises(cqlp.Closed) as closed:
                    page.put([event])
                self.assertEqual(str(closed.exception), "the page was closed")
            page.close()
        page = PageWriter(SIZE)
        page.put(PAGE[:15])
        page.close()
        self.assertRaises(cqlp.Closed, page.put, PAGE[15:])
        self.assertRaises(cqlp.Closed, page.end)

    def test_long_cells(self) -> None:
        events = replaced(17, Event(tag=Tag.LEAF, row=1, kind=Kind.VARCHAR, content=b"x" * 100_000))
        events[6] = events[6]._replace(content=b"n" * 65_535)
        for batch in (1, 5, 64):
            self.assertEqual(in_batches(events, SIZE + 100_000, batch), cqlp.encode(events))
        many = [*PAGE[:11], rows(5000)]
        for row in range(5000):
            many += [PAGE[12]._replace(row=row, content=b"x" * 50), Event(tag=Tag.NULL, row=row, column=1)]
        self.assertEqual(in_batches(many, cells_size(many), 1 << 20), cqlp.encode(many))
        with PageWriter(cells_size(many)) as page:
            for at in range(0, len(many), 64):
                page.put(many[at : at + 64])
                self.assertLessEqual(len(page._held), 64)
            self.assertEqual(len(page._room), 1 << 14)  # no cell wanted more
            page.end()

    def test_what_is_no_event(self) -> None:
        wrong: Tuple[Any, ...] = (3, (), tuple(PAGE[0]))
        with PageWriter(SIZE) as page:
            for event in wrong:
                self.assertRaises(TypeError, page.put, [event])
            self.assertEqual(page.put(iter(PAGE)), cqlp.encode(PAGE))

    def test_pages_changed_at_random(self) -> None:
        """Each is refused, or is what `encode` writes of its events."""
        rng, all_pages, whole = random.Random(6), list(pages()), 0
        for _ in range(CHANGES):
            events = list(rng.choice(all_pages).events)
            for _ in range(rng.randrange(3)):
                events = mutated(rng, events)
            try:
                found = in_batches(events, cells_size(events), 1 + rng.randrange(9))
            except (BadEvent, cqlp.Closed):
                continue
            self.assertEqual(found, cqlp.encode(events))
            whole += 1
        self.assertGreater(whole, CHANGES // 4)

    def test_a_page_of_two_threads(self) -> None:
        page, found = PageWriter(SIZE), []
        found.append(page.put(PAGE[:15]))
        thread = threading.Thread(target=lambda: found.append(page.put(PAGE[15:])))
        thread.start()
        thread.join()
        self.assertEqual(b"".join(found), cqlp.encode(PAGE))


if __name__ == "__main__":
    unittest.main()
