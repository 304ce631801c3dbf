"""Handles, limits, refusals, and what a decoder holds."""

import io
import re
import resource
import threading
import unittest

import cqlp
from cqlp import numbers

from .streams import BINDINGS

OPTIONS = bytes.fromhex("040000000500000000")
# a response whose body would have a byte more than 256 MB
TOO_LONG = bytes.fromhex("840000000810000001")
# a page whose only cell is a list that says 2,147,483,647 elements
TOO_MANY = bytes.fromhex(
    "8400000008000000310000000200000001000000010001" "6b00017400016300200009" "0000000100000010" "7fffffff0000000400000001ffffffff"
)


# a page of two cells of the type int, the second of which has three bytes
ODD = bytes.fromhex("840000010800000028" "000000020000000100000001" "000000000001" "6e0009" "00000002" "00000004" "00000007" "00000003" "000102")


class Numbers(unittest.TestCase):
    def test_numbers_are_those_of_the_header(self) -> None:
        header = (BINDINGS.parent / "include" / "cqlp.h").read_text()
        groups = {
            "STOP": numbers.Stop,
            "END": numbers.End,
            "TAG": numbers.Tag,
            "MARK": numbers.Mark,
            "FIELD": numbers.Field,
            "KIND": numbers.Kind,
            "REASON": numbers.Reason,
            "OPCODE": numbers.Opcode,
            "PHASE": numbers.Phase,
            "REPLY": numbers.ReplyKind,
            "ERROR": numbers.ErrorCode,
            "RESULT": numbers.ResultKind,
            "CONSISTENCY": numbers.Consistency,
            "BATCH": numbers.BatchType,
            "GROUP": numbers.Group,
        }
        for group, names in groups.items():
            defined = re.findall(r"#define CQLP_%s_(\w+) (0x[0-9A-F]+|\d+)" % group, header)
            self.assertEqual(
                {name: int(number, 0) for name, number in defined},
                {name.name: int(name) for name in names if (group, name.name) != ("FIELD", "NONE")},
            )


class Decoder(unittest.TestCase):
    def test_nine_bytes(self) -> None:
        with cqlp.Decoder() as decoder:
            frame, end = decoder.decode(OPTIONS)
            self.assertEqual((frame.tag, frame.opcode, frame.number), (cqlp.Tag.FRAME, cqlp.Opcode.OPTIONS, 0))
            self.assertEqual((end.tag, end.at), (cqlp.Tag.END, 9))
            self.assertEqual(str(decoder.finish()), "whole 9")
            self.assertEqual(decoder.decode(b""), [])

    def test_a_content_that_no_type_has(self) -> None:
        self.assertEqual(str(cqlp.check(ODD)), "refused 42 BadSize")
        with cqlp.Decoder(lenient=True) as decoder:
            first, second = (event for event in decoder.decode(ODD) if event.tag == cqlp.Tag.LEAF)
            self.assertEqual((first.kind, first.number), (cqlp.Kind.INT, 7))
            self.assertEqual((second.kind, second.content, second.row), (cqlp.Kind.RAW, bytes(range(3)), 1))
            self.assertEqual(str(decoder.finish()), "whole 49")
        rows = [(7,), (bytes(range(3)),)]
        self.assertEqual(list(cqlp.rows(io.BytesIO(ODD), lenient=True)), rows)
        self.assertEqual([row for page in cqlp.Pages(io.BytesIO(ODD), lenient=True) for row in page], rows)
        (frame,) = cqlp.frames(io.BytesIO(ODD), lenient=True)
        self.assertEqual(list(frame.message.rows), rows)
        self.assertEqual(list(cqlp.events(io.BytesIO(ODD), lenient=True))[-2], second)
        for read in (cqlp.rows, cqlp.frames, cqlp.events):
            with self.assertRaises(cqlp.Refused):
                list(read(io.BytesIO(ODD)))

    def test_a_refusal_stays(self) -> None:
        with cqlp.Decoder() as decoder:
            for given, events in ((OPTIONS + TOO_LONG, 2), (OPTIONS, 0), (b"", 0)):
                with self.assertRaises(cqlp.Refused) as caught:
                    decoder.decode(given)
                self.assertEqual((caught.exception.at, caught.exception.reason), (14, cqlp.Reason.BAD_LENGTH))
                self.assertEqual(len(caught.exception.events), events)
            self.assertEqual(str(decoder.finish()), "refused 14 BadLength")

    def test_a_count_that_lies_holds_nothing(self) -> None:
        with cqlp.Decoder() as decoder:
            with self.assertRaises(cqlp.Refused) as caught:
                decoder.decode(TOO_MANY)
            self.assertEqual(caught.exception.reason, cqlp.Reason.OVERRUN)
            enter = [event for event in caught.exception.events if event.tag == cqlp.Tag.ENTER]
            self.assertEqual([event.number for event in enter], [2_147_483_647])
            self.assertLess(sum(decoder.held()), 100)

    def test_held_is_bounded(self) -> None:
        query = bytes.fromhex("0400000007000000480000004161")
        with cqlp.Decoder(cqlp.Limits(text=65)) as decoder:
            decoder.decode(query[:13])
            for count in range(64):
                decoder.decode(b"a")
                self.assertEqual(decoder.held().bytes, count + 1)
        with cqlp.Decoder(cqlp.Limits(text=64)) as decoder, self.assertRaises(cqlp.Refused):
            decoder.decode(query[:13])

    def test_limits_out_of_range(self) -> None:
        for name, least, greatest in (
            ("text", 32, 1 << 24),
            ("cell", 32, 1 << 24),
            ("entries", 1, 65536),
            ("depth", 1, 64),
        ):
            for number in (least, greatest):
                cqlp.Decoder(cqlp.Limits(**{name: number})).close()
            for number in (least - 1, greatest + 1, -1, 1 << 32):
                for make in (cqlp.Decoder, lambda limits: cqlp.check(OPTIONS, limits)):
                    with self.assertRaises(cqlp.BadLimits) as caught:
                        make(cqlp.Limits(**{name: number}))
                    self.assertEqual(caught.exception.limit, name)

    def test_use_after_close(self) -> None:
        decoder = cqlp.Decoder()
        decoder.decode(OPTIONS[:4])
        decoder.close()
        decoder.close()
        for call in (lambda: decoder.decode(OPTIONS), lambda: decoder.decode(b""), decoder.finish, decoder.held):
            self.assertRaises(cqlp.Closed, call)

    def test_contents_outlive_the_next_call(self) -> None:
        query = bytes.fromhex("04000007070000000d00000006616263646566000100")
        with cqlp.Decoder() as decoder:
            decoder.decode(query[:15])
            (text,) = decoder.decode(query[15:19])
            decoder.decode(query[19:] + query.replace(b"abcdef", b"xxxxxx"))
            self.assertEqual(text.value, "abcdef")

    def test_any_bytes_may_be_given(self) -> None:
        for given in (bytearray(OPTIONS), memoryview(OPTIONS), memoryview(bytearray(b"x" + OPTIONS))[1:]):
            with cqlp.Decoder() as decoder:
                self.assertEqual(len(decoder.decode(given)), 2)
            self.assertEqual(str(cqlp.check(given)), "whole 9")

    def test_threads_may_share_one(self) -> None:
        with cqlp.Decoder() as decoder:
            tasks = [threading.Thread(target=lambda: [decoder.decode(OPTIONS) for _ in range(1000)]) for _ in range(4)]
            for task in tasks:
                task.start()
            for task in tasks:
                task.join()
            self.assertEqual(str(decoder.finish()), "whole 36000")

    def test_many_are_made_and_freed(self) -> None:
        library, native = cqlp._native.library, cqlp._native
        limits = cqlp.Limits()._native()

        def make_and_free(count: int) -> None:
            handle = native.DecoderHandle()
            for _ in range(count):
                self.assertEqual(library.cqlp_new(limits, handle), native.DONE)
                self.assertEqual(library.cqlp_free(handle), native.DONE)

        make_and_free(1000)
        for _ in range(1000):
            cqlp.Decoder(room=1).close()
        before = resource.getrusage(resource.RUSAGE_SELF).ru_maxrss
        make_and_free(50_000)
        for _ in range(50_000):
            cqlp.Decoder(room=1)
        self.assertLess(resource.getrusage(resource.RUSAGE_SELF).ru_maxrss - before, 20_000)
