"""A client's core, headers, and the words of numbers."""

import threading
import unittest
from typing import Any, Iterator, List

import cqlp
from cqlp import Code, Opcode

from .streams import BINDINGS


def event(stream: int, opcode: int, tag: int = cqlp.Tag.FRAME, response: bool = True) -> cqlp.Event:
    mark = cqlp.Mark.RESPONSE if response else cqlp.Mark.NONE
    return cqlp.Event(0, b"", 0, 0, 0, 0, stream, b"", tag, cqlp.Field.NONE, cqlp.Kind.CUSTOM, opcode, 0, mark)


class Session:
    """Says what the test in C says of the same session: bindings/c/client.c."""

    def __init__(self) -> None:
        self.client = cqlp.Client(2)
        self.lines: List[str] = []

    def phase(self) -> None:
        self.lines.append("phase %d" % self.client.phase)

    def begin(self, opcode: int) -> cqlp.Ticket:
        ticket, code = cqlp.Ticket(99, 99), 0
        try:
            ticket = self.client.begin(opcode, 10 * opcode)
        except cqlp.BadCall as bad:
            code = bad.code
        self.lines.append("begin %d: code %d number %d id %d" % (opcode, code, *ticket))
        return ticket

    def hear(self, frame: cqlp.Event) -> None:
        number, id, what, request, carried, code = 99, 99, 99, 99, 99, 0
        try:
            reply = self.client.reply(frame)
            (number, id), what, request, carried = reply.ticket or (0, 0), reply.what, reply.request or 0, reply.carried or 0
        except cqlp.BadCall as bad:
            code = bad.code
        words = (frame.extra, frame.opcode, code, number, id, what, request, carried)
        self.lines.append("reply %d %d: code %d number %d id %d what %d request %d carried %d" % words)

    def cancel(self, ticket: cqlp.Ticket) -> int:
        try:
            self.client.cancel(ticket)
        except cqlp.BadCall as bad:
            return bad.code
        return 0

    def run(self) -> List[str]:
        self.phase()
        self.begin(7), self.begin(8), self.begin(4)
        startup = self.begin(1)
        self.phase()
        self.begin(5)
        self.lines.append("cancel a STARTUP: %d" % self.cancel(startup))
        self.hear(event(0, 3))
        self.phase()
        self.begin(15)
        self.hear(event(0, 16))
        self.phase()
        first, second = self.begin(7), self.begin(9)
        self.begin(7)
        self.hear(event(1, 8)), self.hear(event(1, 8)), self.hear(event(0, 6)), self.hear(event(0, 7, response=False))
        self.hear(event(-1, 12)), self.hear(event(1, 12)), self.hear(event(2, 8)), self.hear(event(-1, 0))
        self.lines.append("cancel what was answered: %d" % self.cancel(second))
        self.lines.append("cancel: %d, again: %d" % (self.cancel(first), self.cancel(first)))
        self.begin(10), self.begin(13)
        self.hear(event(0, 0))
        self.begin(11)
        self.hear(event(0, 2))
        self.phase()
        self.hear(event(1, 8, cqlp.Tag.END)), self.hear(event(65537, 8)), self.hear(event(1, 17))
        return self.lines


class Client(unittest.TestCase):
    def test_slots_by_default(self) -> None:
        with cqlp.Client() as client, cqlp.Server() as server:
            client.begin(Opcode.STARTUP)
            client.reply(event(0, Opcode.READY))
            self.assertEqual([client.begin(Opcode.QUERY).id for _ in range(1024)], list(range(1024)))
            with self.assertRaises(cqlp.BadCall) as full:
                client.begin(Opcode.QUERY)
            self.assertEqual(full.exception.code, Code.FULL)
            server.accept(event(32767, Opcode.STARTUP, response=False))  # drivers use any id

    def test_a_session_is_that_of_c(self) -> None:
        wanted = (BINDINGS / "c" / "expected-client").read_text().splitlines()
        self.assertEqual(Session().run(), wanted[1 : wanted.index("free: 0, again: 8")])

    def test_frames_are_heard_as_their_events(self) -> None:
        with cqlp.Client() as client:
            ticket = client.begin(Opcode.STARTUP, "any value")
            sent = cqlp.header(Opcode.STARTUP, ticket.id, 0)
            (ready,) = cqlp.frames(cqlp.header(Opcode.READY, ticket.id, 0, response=True))
            reply = client.reply(ready)
            self.assertEqual(reply, (cqlp.ReplyKind.ANSWER, ticket, Opcode.STARTUP, "any value"))
            self.assertIs(client.phase, cqlp.Phase.READY)
            pushed = client.reply(cqlp.events(cqlp.header(Opcode.EVENT, -1, 0, response=True)).__next__())
            self.assertEqual(pushed, (cqlp.ReplyKind.EVENT, None, None, None))
            self.assertEqual(sent, bytes.fromhex("040000000100000000"))

    def test_use_after_close(self) -> None:
        client = cqlp.Client(1)
        ticket = client.begin(Opcode.OPTIONS)
        client.close()
        client.close()
        for call in (
            lambda: client.begin(Opcode.OPTIONS),
            lambda: client.reply(event(0, 6)),
            lambda: client.cancel(ticket),
            lambda: client.phase,
        ):
            self.assertRaises(cqlp.Closed, call)

    def test_out_of_range(self) -> None:
        for make, code in (
            (lambda: cqlp.Client(0), Code.BAD_SLOTS),
            (lambda: cqlp.Client(32769), Code.BAD_SLOTS),
            (lambda: cqlp.Client(-1), Code.BAD_SLOTS),
            (lambda: cqlp.Client(1 << 32), Code.BAD_SLOTS),
            (lambda: cqlp.Client(1).begin(263), Code.NO_REQUEST),
            (lambda: cqlp.Client(1).begin(-1), Code.NO_REQUEST),
            (lambda: cqlp.Client(1).reply(event(1 << 32, 8)), Code.NO_FRAME),
            (lambda: cqlp.Client(1).reply(event(0, 8 + 256)), Code.NO_FRAME),
            (lambda: cqlp.Client(1).cancel(cqlp.Ticket(1 << 64, 0)), Code.NOT_CANCELLED),
            (lambda: cqlp.Client(1).cancel(cqlp.Ticket(1, 65536)), Code.NOT_CANCELLED),
            (lambda: cqlp.header(Opcode.QUERY, 0, 1, flags=1), Code.COMPRESSED),
            (lambda: cqlp.header(4, 0, 1), Code.BAD_OPCODE),
            (lambda: cqlp.header(256, 0, 1), Code.BAD_OPCODE),
            (lambda: cqlp.header(Opcode.QUERY, 0, 1, response=True), Code.BAD_DIRECTION),
            (lambda: cqlp.header(Opcode.QUERY, 0, 268435457), Code.BAD_LENGTH),
            (lambda: cqlp.header(Opcode.QUERY, 0, -1), Code.BAD_LENGTH),
            (lambda: cqlp.header(Opcode.QUERY, 0, 1 << 32), Code.BAD_LENGTH),
            (lambda: cqlp.header(-1, 0, -1), Code.BAD_OPCODE),
            (lambda: cqlp.header(256, 0, -1, flags=1), Code.COMPRESSED),
        ):
            with self.assertRaises(cqlp.BadCall) as caught:
                make()
            self.assertIs(caught.exception.code, code)
        for bad in (dict(stream=32768), dict(stream=-32769), dict(stream=0, flags=256)):
            self.assertRaises(ValueError, lambda: cqlp.header(Opcode.QUERY, length=0, **bad))

    def test_a_ticket_that_wraps_is_none_of_the_core(self) -> None:
        with cqlp.Client(1) as client:
            number, id = client.begin(Opcode.OPTIONS)
            for ticket in (cqlp.Ticket(number + (1 << 64), id), cqlp.Ticket(number, id + 65536), cqlp.Ticket(number, id - 65536)):
                self.assertRaises(cqlp.BadCall, client.cancel, ticket)
            client.cancel(cqlp.Ticket(number, id))

    def test_threads_may_share_one(self) -> None:
        with cqlp.Client(2000) as client:
            ids: List[Any] = []
            tasks = [threading.Thread(target=lambda: ids.extend(client.begin(5).id for _ in range(500))) for _ in range(4)]
            for task in tasks:
                task.start()
            for task in tasks:
                task.join()
            self.assertEqual(sorted(ids), list(range(2000)))


def lines_of_names() -> Iterator[str]:
    for group in cqlp.Group:
        for number in range(-300, 1 << 14):
            word = cqlp.name(group, number)
            if word is not None:
                yield "%s %d %s" % (group.name, number, word)


class Names(unittest.TestCase):
    def test_names_are_those_of_the_sources(self) -> None:
        self.assertEqual(list(lines_of_names()), (BINDINGS / "names.txt").read_text().splitlines())

    def test_other_groups_and_numbers_have_none(self) -> None:
        for group, number in ((0, 0), (17, 0), (-1, 0), (1 << 32 | 1, 0), (1, -1), (1, 1 << 63), (1, -(1 << 63) - 1), (13, 1 << 64)):
            self.assertIsNone(cqlp.name(group, number))

    def test_codes_have_their_names(self) -> None:
        words = {code.name.replace("_", ""): (cqlp.name(cqlp.Group.CODE, code) or "").upper() for code in Code}
        self.assertEqual(list(words), list(words.values()))
        self.assertIsNone(cqlp.name(cqlp.Group.CODE, max(Code) + 1))

    def test_version(self) -> None:
        first, second, third = map(int, cqlp.version().split("."))
        self.assertEqual(cqlp.version_number(), first * 1_000_000 + second * 1000 + third)
        header = (BINDINGS.parent / "include" / "cqlp.h").read_text()
        self.assertIn('#define CQLP_VERSION "%s"\n' % cqlp.version(), header)
