"""Types that are given for pages without metadata."""

import io
import unittest

import cqlp

PREPARED = bytes.fromhex(
    "84000001080000002d 00000004 000170 000000000000000000000000 0000000100000002 00016b 000174 0001610009 000162 0020 000d"
)
PAGE = bytes.fromhex("840000020800000025 00000002 00000004 00000002 00000001 0000000400000007 00000009000000010000000178")
TYPED_PAGE = bytes.fromhex("840000020800000023 00000002 00000001 00000001 00016b 000174 0001630009 00000001 0000000400000009")
WIDE = bytes.fromhex("84000002080000001c 00000002 00000004 00000003 00000001 ffffffffffffffff 00000000")
TYPED, RAW = (7, ["x"]), (b"\0\0\0\7", b"\0\0\0\1\0\0\0\1x")


class Given(unittest.TestCase):
    def test_each_page_without_metadata_has_the_given_types(self) -> None:
        self.assertEqual(list(cqlp.rows(PAGE)), [RAW])
        with cqlp.Types(PREPARED) as types:
            self.assertEqual([(column.name, str(column.type)) for column in types.columns], [("a", "int"), ("b", "list<varchar>")])
            for piece in range(1, 60):
                rows = list(cqlp.rows(PAGE + TYPED_PAGE + PREPARED + PAGE + WIDE + PAGE, types=types, piece=piece))
                self.assertEqual(rows, [TYPED, (9,), TYPED, (None, None, b""), TYPED])
            for page in cqlp.Pages(io.BytesIO(PAGE), types=types):
                self.assertEqual(page.columns, types.columns)
                self.assertEqual(list(page), [TYPED])

    def test_a_stream_that_ends_early(self) -> None:
        self.assertRaises(cqlp.Cut, cqlp.Types, PREPARED[:-1])
        self.assertRaises(cqlp.Refused, cqlp.Types, b"\3" * 9)
        with cqlp.Types(PREPARED) as types:
            self.assertRaises(cqlp.Cut, list, cqlp.rows(PAGE[:-1], types=types))
            self.assertRaises(cqlp.Refused, list, cqlp.rows(PAGE + b"\3" * 9 + PAGE, types=types))
            self.assertEqual(list(cqlp.rows(PAGE, types=types)), [TYPED])

    def test_types_that_are_not_taken(self) -> None:
        types = cqlp.Types(PREPARED)
        for limits, code in (
            (cqlp.Limits(types=False), cqlp.Code.OFF),
            (cqlp.Limits(entries=2), cqlp.Code.TOO_MANY),
            (cqlp.Limits(depth=1), cqlp.Code.TOO_DEEP),
        ):
            with self.assertRaises(cqlp.BadCall) as caught:
                list(cqlp.rows(PAGE, limits, types=types))
            self.assertIs(caught.exception.code, code)
        types.close()
        types.close()
        self.assertRaises(cqlp.Closed, list, cqlp.rows(PAGE, types=types))
