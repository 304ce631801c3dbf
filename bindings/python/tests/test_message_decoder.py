"""Messages of pieces that come from elsewhere."""

import os
import random
import threading
import unittest
from typing import Any, Iterable, List, Tuple
from unittest import mock

import cqlp
from cqlp import _pages, messages

from .streams import BINDINGS, streams
from .test_cells import exact
from .test_messages import endings, others

CHANGES = int(os.environ.get("CQLP_CHANGES", 100_000)) // 20
OPTIONS = cqlp.encode(messages.Options(), 7)
BAD_TEXT = b"\4\0\0\2\7\0\0\0\12\0\0\0\3b\303d\0\1\0"
PAGES = (BINDINGS / "pages.bin").read_bytes()


def fed(pieces: Iterable[bytes], *words: Any, **named: Any) -> Tuple[List[Any], Any]:
    """All that is handed out of these pieces, and how they end."""
    found: List[Any] = []
    with cqlp.MessageDecoder(*words, **named) as decoder:
        try:
            for piece in pieces:
                found.extend(one for one in kept(decoder.feed(piece), found))
        except cqlp.Refused as refused:
            return found, (cqlp.Refused, refused.at, refused.reason)
        verdict = decoder.finish()
    return found, (cqlp.Cut, verdict.at, verdict.bytes) if verdict.end == cqlp.End.CUT else None


def kept(given: Iterable[Any], found: List[Any]) -> Iterable[Any]:
    """Adds what comes before an error too."""
    for one in given:
        found.append(one)
    return ()


def changed(rng: random.Random, data: bytes, seeds: List[bytes]) -> bytes:
    """These bytes with some of them changed, and often with a length that is theirs."""
    found = bytearray(data)
    for _ in range(rng.randrange(4)):
        at, what = rng.randrange(len(found)), rng.randrange(4)
        if what == 0:
            found[at] = rng.randrange(256)
        elif what == 1:
            found[at] ^= 1 << rng.randrange(8)
        elif what == 2:
            other = rng.choice(seeds)
            place = rng.randrange(len(other))
            found[at:at] = other[place : place + rng.randrange(1, 40)]
        elif len(found) > 20:
            del found[at : at + rng.randrange(1, 9)]
    if len(found) >= 9 and rng.randrange(2):
        found[5:9] = (len(found) - 9).to_bytes(4, "big")
    return bytes(found)


class Decoders(unittest.TestCase):
    def test_streams_in_pieces(self) -> None:
        for stream in [*streams(), *others()]:
            wanted = endings(cqlp.frames, stream.bytes, stream.limits)
            for size in (1, 7, 1 << 20):
                pieces = [stream.bytes[at : at + size] for at in range(0, len(stream.bytes), size)]
                for compiled in {_pages._compiled, None}:
                    with mock.patch.object(_pages, "_compiled", compiled):
                        found, ending = fed(pieces, stream.limits)
                    if found and isinstance(found[-1], cqlp.OtherVersion):
                        other = found.pop()
                        self.assertEqual(other.header, stream.bytes[other.at : other.at + 9])
                        self.assertEqual(wanted[1], (cqlp.Refused, other.at, cqlp.Reason.BAD_VERSION))
                        ending = wanted[1]
                    self.assertEqual((exact(found), ending), (exact(wanted[0]), wanted[1]), (stream.name, size))

    def test_any_buffer_is_fed(self) -> None:
        for made in (bytes, bytearray, memoryview):
            found, ending = fed([made(PAGES[:100]), made(b""), made(PAGES[100:])])
            self.assertEqual((found, ending), (list(cqlp.frames(PAGES)), None))
        for given in (5, "x", None, [1]):
            self.assertRaises(TypeError, cqlp.MessageDecoder().feed, given)
        data = bytearray(PAGES)
        with cqlp.MessageDecoder() as decoder:
            found = list(decoder.feed(data))
            data.clear()
            self.assertEqual(found, list(cqlp.frames(PAGES)))

    def test_all_is_read_before_feed_returns(self) -> None:
        with cqlp.MessageDecoder() as decoder:
            decoder.feed(OPTIONS * 3)
            self.assertEqual([frame.at for frame in decoder.feed(OPTIONS * 2)], [27, 36])
            self.assertEqual(str(decoder.finish()), "whole 45")

    def test_what_is_not_of_version_4(self) -> None:
        """A driver that tries another version gets the reply by which it tries version 4."""
        rng = random.Random(3)
        for version in (1, 3, 5, 6, 0x42, 0x83, 0x85):
            header = bytes([version, 0, 0, 9, 5, 0, 0, 0, 0])
            stream = OPTIONS + header + b"more"
            for _ in range(20):
                at = rng.randrange(18)
                decoder = cqlp.MessageDecoder()
                found = [one for piece in (stream[:at], stream[at:18]) for one in decoder.feed(piece)]
                self.assertEqual(len(found), 2)
                other = found[1]
                self.assertIsInstance(other, cqlp.OtherVersion)
                self.assertEqual((other.at, other.header, other.version), (9, header, version & 0x7F))
                self.assertEqual(other.reply, cqlp.version_error(header))
                (error,) = cqlp.frames(other.reply)
                self.assertEqual((error.stream, error.message.code), (0 if version == 1 else 9, cqlp.ErrorCode.PROTOCOL_ERROR))
                for _ in range(2):
                    with self.assertRaises(cqlp.Refused) as refused:
                        decoder.feed(b"more")
                    self.assertEqual((refused.exception.reason, refused.exception.header), (cqlp.Reason.BAD_VERSION, header))
                self.assertEqual(str(decoder.finish()), "refused 9 BadVersion")

    def test_frames_before_a_refusal(self) -> None:
        with cqlp.MessageDecoder() as decoder:
            given = decoder.feed(OPTIONS + BAD_TEXT + OPTIONS)
            self.assertEqual(next(given).message, messages.Options())
            with self.assertRaises(cqlp.Refused) as refused:
                next(given)
            self.assertEqual((refused.exception.at, refused.exception.reason), (18, cqlp.Reason.BAD_UTF8))
            self.assertRaises(cqlp.Refused, decoder.feed, OPTIONS)
        with cqlp.MessageDecoder() as decoder:
            self.assertRaises(cqlp.Refused, decoder.feed, BAD_TEXT)

    def test_a_bad_frame_is_passed_over(self) -> None:
        skipped: List[cqlp.Skipped] = []
        for size in (1, 5, 99):
            stream = OPTIONS + BAD_TEXT + OPTIONS
            pieces = [stream[at : at + size] for at in range(0, len(stream), size)]
            found, ending = fed(pieces, skip=skipped.append)
            self.assertEqual(([frame.at for frame in found], ending), ([0, 28], None))
            self.assertEqual((skipped[-1].frame.extra, skipped[-1].at), (2, 18))

        def fails(one: cqlp.Skipped) -> None:
            raise KeyError("in skip")

        with cqlp.MessageDecoder(skip=fails) as decoder:
            given = decoder.feed(OPTIONS + BAD_TEXT)
            self.assertEqual(next(given).at, 0)
            self.assertRaises(KeyError, next, given)

    def test_a_frame_that_is_too_long(self) -> None:
        with cqlp.MessageDecoder(longest=9) as decoder:
            given = decoder.feed(OPTIONS + PAGES[:9])
            self.assertEqual(next(given).at, 0)
            self.assertRaises(cqlp.FrameTooLong, next, given)
            with self.assertRaises(cqlp.FrameTooLong) as long:
                decoder.feed(b"")
            self.assertEqual((long.exception.at, long.exception.length), (9, 209))

    def test_contents_that_no_type_has(self) -> None:
        page = cqlp.encode(messages.Rows.of([("a", "int")], [(1,)]))
        longer = page[:5] + (len(page) - 8).to_bytes(4, "big") + page[9:-8] + b"\0\0\0\5" + page[-4:] + b"x"
        self.assertEqual(fed([longer])[0], [])
        (frame,), _ = fed([longer], lenient=True)
        self.assertEqual(frame.message.rows, [(b"\0\0\0\1x",)])

    def test_streams_changed_at_random(self) -> None:
        """What is handed out is what `frames` gives, and each frame is written as it was read."""
        rng = random.Random(11)
        seeds = [stream.bytes for stream in [*streams(), *others()] if 9 <= len(stream.bytes) < 4000]
        count = written = 0
        while count < CHANGES:
            data = changed(rng, rng.choice(seeds), seeds)
            cut = rng.randrange(len(data) + 1)
            wanted = endings(cqlp.frames, data)
            found, ending = fed([data[:cut], data[cut:]])
            if found and isinstance(found[-1], cqlp.OtherVersion):
                found.pop()
                ending = wanted[1]
            self.assertEqual((exact(found), ending), (exact(wanted[0]), wanted[1]), data.hex())
            for frame in found:
                (again,) = cqlp.frames(cqlp.encode(frame))
                self.assertEqual(exact(again.message), exact(frame.message), data.hex())
                written += 1
            count += 1
        self.assertGreater(written, CHANGES // 4)

    def test_threads_that_share_one(self) -> None:
        found: List[Any] = []
        decoder = cqlp.MessageDecoder()
        threads = [threading.Thread(target=lambda: [found.extend(decoder.feed(PAGES)) for _ in range(30)]) for _ in range(4)]
        for thread in threads:
            thread.start()
        for thread in threads:
            thread.join()
        self.assertEqual(sorted(frame.at for frame in found), [at + base for base in range(0, 120 * len(PAGES), len(PAGES)) for at in (0, 218)])
        wanted = [frame.message for frame in cqlp.frames(PAGES)]
        self.assertTrue(all(frame.message in wanted for frame in found))

    def test_closed(self) -> None:
        decoder = cqlp.MessageDecoder()
        decoder.close()
        decoder.close()
        self.assertRaises(cqlp.Closed, decoder.feed, OPTIONS)
        self.assertRaises(cqlp.Closed, decoder.finish)
        self.assertRaises(TypeError, decoder.__init__)
        self.assertRaises(cqlp.BadLimits, cqlp.MessageDecoder, cqlp.Limits(depth=0))
