"""The table of bindings/README.md names what each language has: the names are there."""

import re
import unittest
from typing import Iterator, List, Tuple

import cqlp

from .streams import BINDINGS

HEADER = BINDINGS.parent / "include/cqlp.h"
GO = BINDINGS / "go"
PACKAGE = BINDINGS.parent / "dist/rust/src/lib.rs"


def cells() -> Iterator[Tuple[str, List[str]]]:
    """Each task, and what is said of Rust, C, Python and Go."""
    table = (BINDINGS / "README.md").read_text("utf-8").split("| task |", 1)[1].split("\n\n", 1)[0]
    for line in table.split("\n")[2:]:
        task, *languages = (cell.strip() for cell in line.strip("|").split("|"))
        yield task, languages


def names(cell: str) -> List[str]:
    """The calls that a cell names, without what follows them."""
    return [re.split(r"[(=:.]", name, 1)[0].strip() for name in re.findall("`([^`]*)`", cell) if not name.startswith("event.") and "NewLenient.." != name]


class Table(unittest.TestCase):
    def test_each_row_says_what_each_language_has(self) -> None:
        rows = list(cells())
        self.assertGreater(len(rows), 20)
        for task, languages in rows:
            self.assertEqual(len(languages), 4, task)
            for said in languages:
                self.assertTrue(said == "no" or names(said) or "event" in said or "NewLenient" in said, (task, said))

    def test_names_of_python(self) -> None:
        words = {word for reader in (cqlp.rows, cqlp.frames, cqlp.columns) for word in reader.__annotations__}
        for task, (_, _, said, _) in cells():
            for name in names(said):
                self.assertTrue(hasattr(cqlp, name) or name in words or name == "str", (task, name))

    @unittest.skipUnless(HEADER.exists(), "the header is not here")
    def test_names_of_c(self) -> None:
        header = HEADER.read_text("utf-8")
        for task, (_, said, _, _) in cells():
            for name in names(said):
                self.assertTrue("%s(" % name in header, (task, name))

    @unittest.skipUnless(GO.exists(), "the package for Go is not here")
    def test_names_of_go(self) -> None:
        package = "\n".join(file.read_text("utf-8") for file in GO.glob("*.go") if not file.name.endswith("_test.go"))
        for task, (_, _, _, said) in cells():
            for name in names(said):
                found = re.search(r"(?m)^(type|func)( \([^)]*\))? %s\b|^\t%s +(func|\*?[A-Z])" % (name, name), package)
                self.assertTrue(found, (task, name))
            if "NewLenient.." in said:
                self.assertIn("func NewLenientReader(", package)

    @unittest.skipUnless(PACKAGE.exists(), "the package for Rust is not here")
    def test_names_of_rust(self) -> None:
        package = PACKAGE.read_text("utf-8") + "".join(file.read_text("utf-8") for file in PACKAGE.parent.rglob("*.rs"))
        for task, (said, _, _, _) in cells():
            for name in re.findall("`([^`]*)`", said):
                last = name.split("::")[-1]
                self.assertTrue(re.search(r"pub (const )?(fn|struct|enum|mod|trait) %s\b" % last, package), (task, name))
