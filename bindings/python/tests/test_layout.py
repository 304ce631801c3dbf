"""The structs of ctypes lie as those of the library do."""

import os
import pathlib
import re
import shutil
import subprocess
import sys
import tempfile
import unittest

import cqlp
from cqlp import _native

LINES = pathlib.Path(__file__).resolve().parents[2] / "c" / "layouts.h"
OTHER = {
    "cqlp_decoder": _native.DecoderHandle,
    "cqlp_types": _native.Handle,
    "cqlp_columns": _native.Handle,
    "cqlp_client": _native.Handle,
    "cqlp_server": _native.Handle,
    "cqlp_page": _native.Handle,
}


class Layout(unittest.TestCase):
    def test_each_member_lies_where_the_library_has_it(self):
        """layouts.h is written from the sources of the library."""
        text = LINES.read_text("utf-8")
        sizes = re.findall(r"^SIZE\((\w+), (\d+)\)$", text, re.M)
        members = re.findall(r"^MEMBER\((\w+), (\w+), (\d+), (\d+)\)$", text, re.M)
        of = {name: OTHER.get(name) or getattr(_native, "".join(part.capitalize() for part in name.split("_")[1:])) for name, _ in sizes}
        for name, size in sizes:
            self.assertEqual(_native.ctypes.sizeof(of[name]), int(size), name)
            self.assertEqual([field[0] for field in of[name]._fields_], [member for struct, member, _, _ in members if struct == name])
        for name, member, offset, size in members:
            field = getattr(of[name], member)
            self.assertEqual((field.offset, field.size), (int(offset), int(size)), (name, member))
        self.assertEqual(_native.LAYOUT, int(re.search(r"^NUMBER\((\w+)\)$", text, re.M).group(1), 0))

    def test_another_layout_is_refused(self):
        handle = _native.Handle()
        code = _native.library.cqlp_client_new_by_layout(_native.LAYOUT ^ 1, 8, handle)
        self.assertEqual((code, handle.live, handle.place), (cqlp.Code.OTHER_LAYOUT, 0, None))

    @unittest.skipUnless(shutil.which("cc"), "there is no cc")
    def test_a_library_of_another_version_is_refused(self):
        with tempfile.TemporaryDirectory() as room:
            source = pathlib.Path(room, "other.c")
            source.write_text('const char *cqlp_version(void) { return "99.0.1"; }')
            subprocess.run(["cc", "-shared", "-fPIC", "-o", room + "/other.so", str(source)], check=True)
            path = str(pathlib.Path(cqlp.__file__).parents[1])
            words = dict(os.environ, CQLP_LIBRARY=room + "/other.so", PYTHONPATH=path)
            said = subprocess.run([sys.executable, "-c", "import cqlp"], env=words, stderr=subprocess.PIPE, universal_newlines=True)
        self.assertEqual(said.returncode, 1)
        self.assertIn("ImportError: cqlp %s: the library %s/other.so has version 99.0.1" % (cqlp.__version__, room), said.stderr)


if __name__ == "__main__":
    unittest.main()
