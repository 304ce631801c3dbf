"""Frames that are refused within their bodies and passed over."""

import io
import unittest
from typing import List

import cqlp
from cqlp.messages import Options, Query, Rows

OPTIONS = bytes.fromhex("040000010500000000")
BAD_TEXT = bytes.fromhex("040000020700000009 00000002 c328 0001 00")
QUERY = bytes.fromhex("040000030700000009 00000002 6162 0001 00")
BAD_OPCODE = bytes.fromhex("040000024400000000")
COLUMN = "00000002 00000001 00000001 000178 000179 000161 0009"
PAGE = bytes.fromhex("840000050800000032 %s 00000003 0000000400000007 00000003010203 0000000400000008" % COLUMN)
NEXT = bytes.fromhex("840000060800000023 %s 00000001 0000000400000009" % COLUMN)
PREPARED = bytes.fromhex("840000010800000026 00000004 000170 000000000000000000000000 00000001 00000001 00016b 000174 000161 0009")
BARE = bytes.fromhex("840000020800000018 00000002 00000004 00000001 00000001 0000000400000007")
BAD_BARE = bytes.fromhex("840000020800000017 00000002 00000004 00000001 00000001 00000003000007")
STREAM = OPTIONS + BAD_TEXT + QUERY + PAGE + NEXT
SKIPPED = [(9, 2, 18, cqlp.Reason.BAD_UTF8), (45, 5, 89, cqlp.Reason.BAD_SIZE)]


def members_of(skipped: "List[cqlp.Skipped]") -> list:
    return [(one.frame.at, one.frame.extra, one.at, one.reason) for one in skipped]


class Versions(unittest.TestCase):
    def test_a_frame_of_another_version_leaves_its_header(self) -> None:
        """However the stream is cut, so that `version_error` answers under its stream id."""
        other = bytes.fromhex("050000070500000004") + b"tail"
        readers = (cqlp.rows, cqlp.events, cqlp.frames, cqlp.columns, cqlp.arrays, lambda *given, **named: map(tuple, cqlp.Pages(*given, **named)))
        for before in (b"", OPTIONS, OPTIONS * 3, BAD_TEXT + OPTIONS, OPTIONS + BAD_TEXT):
            wanted = (len(before), other[:9])
            for piece in range(1, 50):
                for read in readers:
                    with self.assertRaises(cqlp.Refused) as caught:
                        list(read(before + other, piece=piece, skip=lambda skipped: None))
                    self.assertEqual((caught.exception.at, caught.exception.header), wanted)
                with self.assertRaises(cqlp.Refused) as caught, cqlp.Decoder() as decoder:
                    self.give(decoder, before + other, piece)
                self.assertEqual((caught.exception.at, caught.exception.header), wanted)
        with cqlp.Decoder() as decoder:
            decoder.decode(OPTIONS + other[:1])
            for given in (other[1:], OPTIONS):  # the refusal stays, and so does its header
                with self.assertRaises(cqlp.Refused) as caught:
                    decoder.decode(given)
                self.assertEqual((caught.exception.at, caught.exception.header), (9, other[:9]))
        self.assertEqual(cqlp.version_error(other[:9])[:5], bytes.fromhex("8400000700"))
        for bad in (BAD_TEXT, BAD_OPCODE):
            with self.assertRaises(cqlp.Refused) as caught:
                cqlp.Decoder().decode(OPTIONS + bad)
            self.assertEqual(caught.exception.header, b"")

    def give(self, decoder: cqlp.Decoder, data: bytes, piece: int) -> None:
        """Gives the pieces of a stream, and passes over the frames that may be."""
        for at in range(0, len(data), piece):
            some = data[at : at + piece]
            while some:
                try:
                    decoder.decode(some)
                    some = b""
                except cqlp.Refused as refused:
                    if refused.header:
                        raise
                    decoder.skip()
                    some = refused.rest


class Skips(unittest.TestCase):
    def test_frames_behind_bad_ones_in_pieces_of_each_size(self) -> None:
        for piece in range(1, len(STREAM) + 1):
            skipped: "List[cqlp.Skipped]" = []
            frames = list(cqlp.frames(STREAM, piece=piece, skip=skipped.append))
            self.assertEqual([frame.at for frame in frames], [0, 27, 104])
            self.assertIsInstance(frames[0].message, Options)
            self.assertTrue(isinstance(frames[1].message, Query) and frames[1].message.query == "ab")
            self.assertTrue(isinstance(frames[2].message, Rows) and frames[2].message.rows == [(9,)])
            self.assertEqual(members_of(skipped), SKIPPED)

    def test_rows_pages_and_columns(self) -> None:
        for piece in (1, 7, 50, 65536):
            skipped: "List[cqlp.Skipped]" = []
            self.assertEqual(list(cqlp.rows(io.BytesIO(STREAM), piece=piece, skip=skipped.append)), [(7,), (9,)])
            self.assertEqual(members_of(skipped), SKIPPED)
            pages = [(page.count, list(page)) for page in cqlp.Pages(STREAM, piece=piece, skip=skipped.append)]
            self.assertEqual(pages, [(3, [(7,)]), (1, [(9,)])])
            columns = [list(page["a"].values) for page in cqlp.columns(STREAM, piece=piece, skip=skipped.append)]
            self.assertEqual(columns, [[9]])
            self.assertEqual(members_of(skipped), SKIPPED * 3)
            self.assertEqual(str(skipped[0]), "the frame at 9 is passed over: refused at 18: BadUtf8")

    def test_events_are_those_of_the_frames_alone(self) -> None:
        skipped: "List[cqlp.Skipped]" = []
        events = [event for event in cqlp.events(STREAM, skip=skipped.append) if event.at >= 104]
        alone = list(cqlp.events(NEXT))
        self.assertEqual(events, [event._replace(at=event.at + 104) for event in alone])
        self.assertEqual([one.rest for one in skipped], [9, 15])

    def test_types_are_given_again(self) -> None:
        with cqlp.Types(PREPARED) as types:
            for piece in range(1, 40):
                skipped: "List[cqlp.Skipped]" = []
                rows = list(cqlp.rows(BARE + BAD_BARE + BAD_BARE + BARE, types=types, piece=piece, skip=skipped.append))
                self.assertEqual(rows, [(7,), (7,)])
                self.assertEqual([one.frame.at for one in skipped], [33, 65])

    def test_what_is_refused_in_a_header_stays_so(self) -> None:
        skipped: "List[cqlp.Skipped]" = []
        frames = cqlp.frames(BAD_TEXT + OPTIONS + BAD_OPCODE, skip=skipped.append)
        self.assertEqual(next(frames).at, 18)
        with self.assertRaises(cqlp.Refused) as found:
            next(frames)
        self.assertEqual((found.exception.at, found.exception.reason), (31, cqlp.Reason.BAD_OPCODE))
        self.assertEqual(len(skipped), 1)

    def test_a_decoder_step_by_step(self) -> None:
        with cqlp.Decoder() as decoder:
            with self.assertRaises(cqlp.BadCall) as early:
                decoder.skip()
            self.assertEqual(early.exception.code, cqlp.Code.NOT_REFUSED)
            with self.assertRaises(cqlp.Refused) as refused:
                decoder.decode(STREAM[:30])
            self.assertEqual([event.at for event in refused.exception.events], [0, 9, 9])
            skipped = decoder.skip()
            self.assertEqual((skipped.at, skipped.rest, skipped.frame.number), (18, 9, 9))
            self.assertEqual(decoder.decode(refused.exception.rest), [])
            self.assertEqual(decoder.finish().at, 27)
            self.assertEqual(decoder.decode(STREAM[30:36])[0].at, 27)
        self.assertRaises(cqlp.Closed, decoder.skip)
        with cqlp.Decoder() as decoder:
            self.assertRaises(cqlp.Refused, decoder.decode, BAD_OPCODE)
            with self.assertRaises(cqlp.BadCall) as header:
                decoder.skip()
            self.assertEqual(header.exception.code, cqlp.Code.IN_HEADER)
            self.assertRaises(cqlp.Refused, decoder.decode, b"")


if __name__ == "__main__":
    unittest.main()
