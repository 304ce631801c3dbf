"""Each stream says what is expected, in every cut."""

import unittest
from typing import Iterable, Tuple

import cqlp

from .streams import Stream, streams


def said(stream: Stream, pieces: Iterable[bytes], room: int = 256) -> Tuple[list, str]:
    """The events that a decoder gives of these pieces, and the verdict."""
    events = []
    with cqlp.Decoder(stream.limits, room=room) as decoder:
        try:
            for piece in pieces:
                events += decoder.decode(piece)
        except cqlp.Refused as refused:
            events += refused.events
        return events, str(decoder.finish())


class Streams(unittest.TestCase):
    def test_lines_and_verdicts(self) -> None:
        count = 0
        for stream in streams():
            with self.subTest(stream.name):
                events, verdict = said(stream, [stream.bytes])
                self.assertEqual([str(event) for event in events], stream.lines)
                self.assertEqual(verdict, stream.verdict)
                self.assertEqual(str(cqlp.check(stream.bytes, stream.limits)), stream.verdict)
                count += 1
        self.assertGreaterEqual(count, 138)

    def test_every_cut_in_two(self) -> None:
        for stream in streams():
            wanted = said(stream, [stream.bytes])
            for at in range(len(stream.bytes) + 1):
                pieces = [stream.bytes[:at], stream.bytes[at:]]
                self.assertEqual(said(stream, pieces), wanted, (stream.name, at))

    def test_byte_by_byte_with_little_room(self) -> None:
        for stream in streams():
            wanted = said(stream, [stream.bytes])
            for room in (1, 2, 3):
                pieces = [bytes([byte]) for byte in stream.bytes]
                self.assertEqual(said(stream, pieces, room), wanted, (stream.name, room))
                self.assertEqual(said(stream, [stream.bytes], room), wanted, (stream.name, room))

    def test_sources_say_it_too(self) -> None:
        for stream in streams():
            events, ending = [], None
            try:
                for event in cqlp.events(stream.bytes, stream.limits, piece=7):
                    events.append(event)
            except (cqlp.Refused, cqlp.Cut) as error:
                ending = error
            self.assertEqual([str(event) for event in events], stream.lines, stream.name)
            words = stream.verdict.split(" ")
            if isinstance(ending, cqlp.Refused):
                self.assertEqual(words[:2], ["refused", str(ending.at)])
            elif isinstance(ending, cqlp.Cut):
                self.assertEqual(words, ["cut", str(ending.at), str(ending.bytes)])
            else:
                self.assertEqual(words[0], "whole")
