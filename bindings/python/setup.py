"""What the package has beside its Python: the modules in C, and the library libcqlp.so. In a clone bindings/build made the library; a source package,
which dist/release makes, has its text in Rust and C, and compiles it here. What else is said of the package is in pyproject.toml."""

import shutil
import subprocess
import sys
from pathlib import Path

from setuptools import Extension, setup
from setuptools.command.build_py import build_py
from setuptools.command.sdist import sdist

HERE = Path(__file__).resolve().parent
RUST = HERE / "rust"
TOP = HERE if RUST.exists() else HERE.parents[1]
OUT = TOP / "bindings" / "out"


class WithLibrary(build_py):
    """Puts the library beside the modules."""

    def run(self) -> None:
        if RUST.exists() and subprocess.run([str(TOP / "bindings/compile"), str(OUT), str(RUST)]).returncode:
            sys.exit("cqlp: the library was not built; the lines before say why")
        if not (OUT / "libcqlp.so").exists():
            sys.exit("cqlp: there is no %s; run `bindings/build --erased` first" % (OUT / "libcqlp.so"))
        super().run()
        if not getattr(self, "editable_mode", False):
            shutil.copyfile(OUT / "libcqlp.so", Path(self.build_lib) / "cqlp" / "libcqlp.so")


class NoSource(sdist):
    """Refuses a source package that would lack the library's text."""

    def run(self) -> None:
        sys.exit("cqlp: `dist/release` makes the source package, which has the text of the library")


setup(
    cmdclass={"build_py": WithLibrary, "sdist": NoSource},
    # the modules in C are for each Python from 3.9 on, and so is the wheel
    options={"bdist_wheel": {"py_limited_api": "cp39"}},
    ext_modules=[
        Extension("cqlp." + name, ["cqlp/%s.c" % name], include_dirs=[str(TOP / "include")], py_limited_api=True)
        for name in ("_batches", "_capsules", "_cells", "_nested", "_records")
    ],
)
