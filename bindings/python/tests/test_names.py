"""Each public name is used by a program that mypy reads, and it runs."""

import re
import unittest
from pathlib import Path

import cqlp

from . import every_name


class Names(unittest.TestCase):
    def test_each_public_name_is_used(self) -> None:
        used = set(re.findall(r"\w+", Path(every_name.__file__).read_text(encoding="utf-8")))
        self.assertEqual([name for name in cqlp.__all__ if name not in used], [])

    def test_the_program_runs(self) -> None:
        every_name.main()
