"""A server's core, alone and against a client's."""

import random
import unittest
from typing import Any, Dict, Iterator, List, Tuple

import cqlp
from cqlp import Code, Opcode

from .streams import BINDINGS
from .test_client import event

BODIES: Dict[Opcode, bytes] = {
    Opcode.ERROR: b"\0\0\0\x0a\0\0",
    Opcode.STARTUP: b"\0\0",
    Opcode.READY: b"",
    Opcode.AUTHENTICATE: b"\0\1a",
    Opcode.OPTIONS: b"",
    Opcode.SUPPORTED: b"\0\0",
    Opcode.QUERY: b"\0\0\0\1q\0\1\0",
    Opcode.RESULT: b"\0\0\0\1",
    Opcode.PREPARE: b"\0\0\0\1p",
    Opcode.EXECUTE: b"\0\1e\0\1\0",
    Opcode.REGISTER: b"\0\0",
    Opcode.EVENT: b"\0\5OTHER",
    Opcode.BATCH: b"\0\0\0\0\1\0",
    Opcode.AUTH_CHALLENGE: b"\xff\xff\xff\xff",
    Opcode.AUTH_RESPONSE: b"\xff\xff\xff\xff",
    Opcode.AUTH_SUCCESS: b"\xff\xff\xff\xff",
}
"""The least body of each message, section 4."""

ANSWERS = {
    Opcode.STARTUP: [Opcode.READY, Opcode.AUTHENTICATE],
    Opcode.AUTH_RESPONSE: [Opcode.AUTH_CHALLENGE, Opcode.AUTH_SUCCESS],
    Opcode.OPTIONS: [Opcode.SUPPORTED, Opcode.ERROR],
    Opcode.QUERY: [Opcode.RESULT, Opcode.ERROR],
    Opcode.PREPARE: [Opcode.RESULT, Opcode.ERROR],
    Opcode.EXECUTE: [Opcode.RESULT, Opcode.ERROR],
    Opcode.BATCH: [Opcode.RESULT, Opcode.ERROR],
    Opcode.REGISTER: [Opcode.READY, Opcode.ERROR],
}
"""What answers each request, but that none which sets up the connection fails."""


def message(opcode: Opcode, stream: int, response: bool) -> bytes:
    return cqlp.header(opcode, stream, len(BODIES[opcode]), response=response) + BODIES[opcode]


class Session:
    """Says what the test in C says of the same session: bindings/c/server.c."""

    def __init__(self) -> None:
        self.server = cqlp.Server(2)
        self.lines: List[str] = []

    def phase(self) -> None:
        self.lines.append("phase %d" % self.server.phase)

    def accept(self, frame: cqlp.Event, carried: int) -> None:
        code = 0
        try:
            self.server.accept(frame, carried)
        except cqlp.BadCall as bad:
            code = bad.code
        self.lines.append("accept %d %d: code %d" % (frame.extra, frame.opcode, code))

    def request(self, stream: int, opcode: int, carried: int) -> None:
        self.accept(event(stream, opcode, response=False), carried)

    def answer(self, stream: int, opcode: int) -> None:
        answered, code = cqlp.Answered(99, 99), 0
        try:
            answered = self.server.answer(stream, opcode)
        except cqlp.BadCall as bad:
            code = bad.code
        words = (stream, opcode, code, answered.carried, answered.request)
        self.lines.append("answer %d %d: code %d carried %d request %d" % words)

    def run(self) -> List[str]:
        self.phase()
        self.request(0, 7, 1), self.request(0, 5, 2), self.request(0, 1, 3), self.request(2, 5, 4), self.request(-1, 5, 5)
        self.accept(event(1, 2), 6)
        self.answer(1, 6), self.answer(0, 2), self.answer(0, 4), self.answer(0, 5), self.answer(0, 6), self.answer(0, 6)
        self.request(1, 1, (1 << 64) - 1)
        self.phase()
        self.request(0, 5, 7), self.answer(1, 3)
        self.phase()
        self.request(0, 15, 8), self.answer(0, 16)
        self.phase()
        self.request(1, 7, 9), self.request(0, 11, 10)
        self.answer(1, 0), self.answer(0, 2), self.answer(-1, 12)
        self.phase()
        self.accept(event(1, 7, cqlp.Tag.END, response=False), 11)
        self.request(65537, 7, 12), self.request(1, 17, 13)
        return self.lines


class Talk:
    """A client and a server, and what is under way between them."""

    def __init__(self, seed: int) -> None:
        self.random = random.Random(seed)
        self.client, self.server = cqlp.Client(5), cqlp.Server(5)
        self.near, self.far = cqlp.Decoder(), cqlp.Decoder()
        self.asked, self.sent = bytearray(), bytearray()
        self.open: Dict[int, Opcode] = {}
        self.begun, self.dropped, self.pushed = 0, 0, 0

    def begin(self) -> None:
        opcode = self.random.choice(list(ANSWERS))
        try:
            ticket = self.client.begin(opcode, ("asked", self.begun))
        except cqlp.BadCall as bad:
            assert bad.code in (Code.BAD_PHASE, Code.FULL)
            return
        self.begun += 1
        assert ticket.number == self.begun
        self.asked += message(opcode, ticket.id, False)
        if opcode not in (Opcode.STARTUP, Opcode.AUTH_RESPONSE) and self.random.random() < 0.25:
            self.client.cancel(ticket)

    def came(self, decoder: cqlp.Decoder, wire: bytearray) -> Iterator[cqlp.Event]:
        length = self.random.randint(0, len(wire))
        for event in decoder.decode(bytes(wire[:length])):
            if event.tag == cqlp.Tag.FRAME:
                yield event
        del wire[:length]

    def serve(self) -> None:
        for frame in self.came(self.far, self.asked):
            self.server.accept(frame, ["accepted", frame.opcode])
            self.open[frame.extra] = Opcode(frame.opcode)
        if self.open:
            stream = self.random.choice(list(self.open))
            request = self.open.pop(stream)
            opcode = self.random.choice(ANSWERS[request])
            assert self.server.answer(stream, opcode) == (request, ["accepted", request])
            self.sent += message(opcode, stream, True)

    def push(self) -> None:
        self.pushed += 1
        self.sent += cqlp.event_header(len(BODIES[Opcode.EVENT])) + BODIES[Opcode.EVENT]

    def hear(self) -> Iterator[Tuple[Any, Any]]:
        for frame in self.came(self.near, self.sent):
            reply = self.client.reply(frame)
            if reply.what == cqlp.ReplyKind.EVENT:
                self.pushed -= 1
            else:
                self.dropped += reply.what == cqlp.ReplyKind.DROPPED
                assert reply.ticket
                yield ("asked", reply.ticket.number - 1), reply.carried


class Server(unittest.TestCase):
    def test_a_session_is_that_of_c(self) -> None:
        wanted = (BINDINGS / "c" / "expected-server").read_text().splitlines()
        self.assertEqual(Session().run(), wanted[1 : wanted.index("free: 0, again: 23")])

    def test_both_cores_talk(self) -> None:
        for seed in range(5):
            talk, replies, step = Talk(seed), 0, 0
            while step < 500 or talk.asked or talk.sent or talk.open:
                step += 1
                if step < 500:
                    talk.begin()
                    if step % 8 == 0:
                        talk.push()
                talk.serve()
                for wanted, carried in talk.hear():
                    self.assertEqual(wanted, carried)
                    replies += 1
            self.assertEqual((replies, talk.pushed), (talk.begun, 0))
            self.assertGreater(talk.dropped, 0)
            self.assertIs(talk.client.phase, talk.server.phase)
            self.assertEqual((talk.client._values, talk.server._values), ({}, {}))

    def test_frames_are_accepted_as_their_events(self) -> None:
        with cqlp.Server() as server:
            (options,) = cqlp.frames(message(Opcode.OPTIONS, 3, False))
            server.accept(options, options)
            self.assertRaises(cqlp.BadCall, server.accept, options)
            self.assertIs(server.answer(3, Opcode.SUPPORTED).carried, options)
            self.assertIs(server.phase, cqlp.Phase.FRESH)

    def test_another_version(self) -> None:
        for header, stream, version in (
            (b"\x05\0\x01\x02\5\0\0\0\0", 0x0102, 5),
            (b"\x03\0\xff\xff\5\0\0\0\0more", -1, 3),
            (b"\x02\0\x80\5\0\0\0\0", -128, 2),
            (b"\xff", 0, 127),
            (b"", 0, 0),
        ):
            (error,) = cqlp.frames(cqlp.version_error(header))
            self.assertEqual((error.stream, error.response, error.message.code), (stream, True, cqlp.ErrorCode.PROTOCOL_ERROR))
            text = "Invalid or unsupported protocol version (%d); the lowest supported version is 4 and the greatest is 4"
            self.assertEqual(error.message.message, text % version)

    def test_use_after_close(self) -> None:
        server = cqlp.Server(1)
        server.accept(event(0, 5, response=False))
        server.close()
        server.close()
        for call in (lambda: server.accept(event(0, 5, response=False)), lambda: server.answer(0, 6), lambda: server.phase):
            self.assertRaises(cqlp.Closed, call)

    def test_out_of_range(self) -> None:
        for make, code in (
            (lambda: cqlp.Server(0), Code.BAD_SLOTS),
            (lambda: cqlp.Server(32769), Code.BAD_SLOTS),
            (lambda: cqlp.Server(-1), Code.BAD_SLOTS),
            (lambda: cqlp.Server(1).accept(event(1 << 32, 5, response=False)), Code.NO_FRAME),
            (lambda: cqlp.Server(1).accept(event(0, 5 + 256, response=False)), Code.NO_FRAME),
            (lambda: cqlp.Server(1).answer(1 << 16, Opcode.READY), Code.NO_SUCH_STREAM),
            (lambda: cqlp.Server(1).answer(1 << 16, 256), Code.BAD_OPCODE),
            (lambda: cqlp.Server(1).answer(0, 256), Code.BAD_OPCODE),
            (lambda: cqlp.event_header(1, flags=1), Code.COMPRESSED),
            (lambda: cqlp.event_header(-1), Code.BAD_LENGTH),
            (lambda: cqlp.event_header(268435457), Code.BAD_LENGTH),
        ):
            with self.assertRaises(cqlp.BadCall) as caught:
                make()
            self.assertIs(caught.exception.code, code)
        self.assertRaises(ValueError, lambda: cqlp.event_header(0, flags=256))
        self.assertEqual(cqlp.event_header(7, flags=2), cqlp.header(Opcode.EVENT, -1, 7, flags=2, response=True))
