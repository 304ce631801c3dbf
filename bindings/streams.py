#!/usr/bin/env python3
"""Writes bindings/streams.txt, which the tests of all wrappers read, to standard output: bindings/streams.py > bindings/streams.txt

Its streams, and what is said of them, are the command lines of programs/lines, which were written by hand or taken from the definition. Those
below a line `## NAME` have that name, and come first. Of each stream there are: a line `stream NAME` with the limits text, cell, entries, depth and the switches types and
parts; a line `bytes` with the stream in hexadecimal digits; the lines of its events, as `cqlp show` writes them; and a line `end` with the
verdict. Lines of JSON are left out.
"""
import pathlib
import re

DATA = pathlib.Path(__file__).resolve().parent.parent / "programs/data"


def bytes_of(digits):
    """`20x0009` means twenty times the digits 0009."""
    return "".join(
        part.split("x")[1] * int(part.split("x")[0]) if "x" in part else part for part in digits.split()
    )


def stanzas(path):
    """The lines below each line `== NAME`, in order."""
    found = []
    for line in path.read_text("utf-8").splitlines():
        if line.startswith("== "):
            found.append((line[3:], []))
        elif found and not line.startswith(("# ", "## ")):
            found[-1][1].append(line)
    return found


def inputs(path):
    """The name, if there is one, the words and the bytes of each command line."""
    name = None
    for line in path.read_text("utf-8").splitlines():
        words, bar, digits = line.partition("|")
        if bar:
            yield name, words.strip(), bytes_of(digits)
        name = line[3:] if line.startswith("## ") else None


def limits(words, text, cell, entries, depth):
    given = {"text": text, "cell": cell, "entries": entries, "depth": depth}
    given.update((name, int(n)) for name, n in re.findall(r"--(text|cell|entries|depth)[ =](\d+)", words))
    return [*given.values(), int("--raw" not in words), int("--parts" in words)]


def write(name, bounds, digits, lines, verdict):
    print("stream", name, *bounds)
    print("bytes", digits)
    for line in lines:
        print(line)
    print("end", verdict)


def commands():
    """Those command lines that show a stream from standard input, by a reading that is not lenient, none of whose frames is passed over."""
    said = {}
    for name, lines in stanzas(DATA / "said.txt"):
        said.setdefault(name, []).append(lines)
    shown = [
        (name, words, digits)
        for name, words, digits in inputs(DATA / "lines.txt")
        if re.fullmatch(r"show( --.*)? -", words) and "--json" not in words and "--lenient" not in words
    ]
    streams = []
    for name, words, digits in shown:
        lines = said[words].pop(0)
        at = next(i for i, line in enumerate(lines) if line.startswith("-- "))
        if not lines[at + 1].startswith("skipped ") and "--lenient" not in words:
            streams.append((name, limits(words, 1 << 20, 1 << 20, 4096, 16), digits, lines[:at], lines[at + 1]))
    named = [stream for stream in streams if stream[0]]
    others = [("shown_%d" % n, *stream[1:]) for n, stream in enumerate((stream for stream in streams if not stream[0]), 1)]
    for stream in named + others:
        write(*stream)


commands()
