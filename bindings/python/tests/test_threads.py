"""What calls from several threads, from within a call and after a fork do."""

import io
import os
import queue
import re
import signal
import threading
import unittest
from typing import Any, Callable, List

import cqlp
from cqlp import Event, Field, Mark, Opcode, ResultKind, Tag

from .streams import BINDINGS

PAGES = (BINDINGS / "pages.bin").read_bytes()
FIRST = PAGES[:218]
READERS = (cqlp.rows, cqlp.events, cqlp.frames, cqlp.columns, cqlp.arrays, lambda source: (tuple(page) for page in cqlp.Pages(source)))


def in_threads(task: Callable[[], None], count: int = 4) -> None:
    threads = [threading.Thread(target=task) for _ in range(count)]
    for thread in threads:
        thread.start()
    for thread in threads:
        thread.join()


class Gate(io.BytesIO):
    """A file whose second read waits until it is let through."""

    def __init__(self, data: bytes) -> None:
        super().__init__(data)
        self.waits, self.go, self.reads = threading.Event(), threading.Event(), 0

    def read1(self, size: int = -1) -> bytes:
        self.reads += 1
        if self.reads == 2:
            self.waits.set()
            self.go.wait(30)
        return super().read1(218)


class Number:
    """A number that has something done when it is read."""

    def __init__(self, number: int, done: Callable[[], None]) -> None:
        self.number, self.done = number, done

    def __index__(self) -> int:
        self.done()
        return self.number


def head(rows: Any) -> List[Event]:
    return [
        Event(tag=Tag.FRAME, mark=Mark.RESPONSE, opcode=Opcode.RESULT),
        Event(tag=Tag.INT, field=Field.RESULT_KIND, number=ResultKind.ROWS),
        Event(tag=Tag.INT, field=Field.META_FLAGS, number=4),
        Event(tag=Tag.COUNT, field=Field.COLUMNS, number=1),
        Event(tag=Tag.COUNT, field=Field.ROWS, number=rows),
    ]


def said(value: Any) -> str:
    """What a value says of itself, but for where it lies."""
    return re.sub("0x[0-9a-f]+", "", repr(value))


class Threads(unittest.TestCase):
    def test_four_threads_give_whole_pages_to_one_decoder(self) -> None:
        for room in (1, 256):
            with cqlp.Decoder(room=room) as decoder:
                wanted = [event._replace(at=0) for event in decoder.decode(FIRST)]
                found: List[Any] = []

                def give() -> None:
                    for _ in range(30):
                        try:
                            found.append([event._replace(at=0) for event in decoder.decode(FIRST)])
                        except cqlp.Error as error:
                            found.append(error)

                in_threads(give)
                self.assertEqual(len(found), 120)
                self.assertEqual([one for one in found if one != wanted], [])
                self.assertEqual(str(decoder.finish()), "whole %d" % (121 * len(FIRST)))

    def test_one_thread_at_a_time_reads_a_source(self) -> None:
        for read in READERS:
            wanted, found = list(read(FIRST * 2)), []
            gate = Gate(FIRST * 2)
            reader = read(gate)
            thread = threading.Thread(target=lambda: found.extend(reader))
            thread.start()
            self.assertTrue(gate.waits.wait(30))
            for _ in range(3):
                self.assertRaises(ValueError, next, reader)
            gate.go.set()
            thread.join()
            self.assertEqual(found, wanted)

    def test_threads_that_share_pages(self) -> None:
        gate = Gate(FIRST + FIRST)
        pages = cqlp.Pages(gate)
        page = next(pages)
        found = list(page.__next__() for _ in range(3))
        thread = threading.Thread(target=lambda: found.extend(row for each in pages for row in each))
        thread.start()
        self.assertTrue(gate.waits.wait(30))
        self.assertRaises(cqlp.InUse, next, pages)
        self.assertRaises(cqlp.InUse, next, page)
        gate.go.set()
        thread.join()
        self.assertEqual(found, list(cqlp.rows(FIRST + FIRST)))

    def test_four_threads_share_what_is_read(self) -> None:
        for read in (*READERS, lambda source: iter(next(cqlp.Pages(source)))):
            wanted = [said(one) for one in read(FIRST)]
            reader, found, refused = read(FIRST), queue.Queue(), []

            def take() -> None:
                while True:
                    try:
                        found.put(said(next(reader)))
                    except StopIteration:
                        return
                    except ValueError as error:
                        refused.append(error)

            in_threads(take)
            self.assertEqual(sorted(found.queue), sorted(wanted))


class Within(unittest.TestCase):
    def test_a_call_from_within_a_call(self) -> None:
        page, caught = cqlp.PageWriter(), []

        def close() -> None:
            for call in (page.close, page.end, lambda: page.put([])):
                try:
                    call()
                except cqlp.InUse as error:
                    caught.append(str(error))

        self.assertEqual(len(page.put(head(Number(0, close)))), 25)
        self.assertEqual(caught, ["a call is under way"] * 3)
        page.end()

    def test_a_call_of_another_thread_waits(self) -> None:
        page, inside, go, done = cqlp.PageWriter(), threading.Event(), threading.Event(), []

        def wait() -> None:
            inside.set()
            go.wait(30)

        first = threading.Thread(target=lambda: done.append(page.put(head(Number(0, wait)))))
        second = threading.Thread(target=lambda: done.append(page.end()))
        first.start()
        self.assertTrue(inside.wait(30))
        second.start()
        second.join(0.05)
        self.assertTrue(second.is_alive())
        go.set()
        first.join()
        second.join()
        self.assertEqual((len(done[0]), done[1]), (25, None))

    @unittest.skipUnless(hasattr(os, "fork"), "there is no fork here")
    def test_a_fork_while_another_thread_is_in_a_call(self) -> None:
        page, inside, go = cqlp.PageWriter(), threading.Event(), threading.Event()
        free = cqlp.Decoder()

        def wait() -> None:
            inside.set()
            go.wait(30)

        thread = threading.Thread(target=lambda: page.put(head(Number(0, wait))))
        thread.start()
        self.assertTrue(inside.wait(30))
        child = os.fork()
        if child == 0:
            signal.alarm(10)  # ends a child that waits for a thread that it does not have
            try:
                page.put([])
            except cqlp.InUse:
                os._exit(0 if len(free.decode(FIRST)) > 10 else 2)
            finally:
                os._exit(1)
        self.assertEqual(os.waitpid(child, 0)[1], 0)
        go.set()
        thread.join()


class Begun(unittest.TestCase):
    def test_a_second_init_is_refused(self) -> None:
        decoder, client, server, page = cqlp.Decoder(), cqlp.Client(4), cqlp.Server(4), cqlp.PageWriter()
        for made in (decoder, client, server, page):
            self.assertRaises(TypeError, made.__init__)
        self.assertEqual(decoder.decode(FIRST)[-1].at, 218)
        self.assertEqual((client.begin(Opcode.STARTUP).id, server.phase), (0, cqlp.Phase.FRESH))
        self.assertEqual(len(page.put(head(0))), 25)
