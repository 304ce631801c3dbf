#!/usr/bin/env python3
"""Writes bindings/c/layouts.h to standard output: bindings/layouts.py > bindings/c/layouts.h

That is how the structs of include/cqlp.h lie in memory where a pointer has 8 bytes. Offsets and sizes are those of the `repr(C)` structs in the
sources of the crate cqlp_c, by the rules of C; from the header come the names alone. bindings/c/layout.c, which is part of the library, compares the
header with it when it is compiled. The number of the layout is a checksum of the lines above it, so each change of a layout changes the number.
"""
import pathlib
import re
import sys
import zlib

TOP = pathlib.Path(__file__).resolve().parent.parent
NUMBERS = {"u8": 1, "u16": 2, "i16": 2, "u32": 4, "i32": 4, "u64": 8, "i64": 8, "usize": 8}
# What has another name in C than its own in snake_case.
NAMES = {"CqlpHeld": "cqlp_holding"}
HEAD = """\
/* How the structs of cqlp.h lie where a pointer has 8 bytes: SIZE(struct, bytes), then MEMBER(struct, member, offset, bytes) for each of its members, and
 * last the number of the layout. Written by bindings/layouts.py from the sources of the crate cqlp_c. */
"""


def sources():
    """The `repr(C)` structs of the sources: of each the members that lie in memory, with their types."""
    found = {}
    for path in sorted((TOP / "crates/cqlp_c/src").glob("*.rt")):
        for name, body in re.findall(r"^#\[repr\(C\)\]\n(?:#\[[^\n]*\n)*pub struct (\w+) \{\n(.*?)^\}", path.read_text("utf-8"), re.M | re.S):
            found[name] = re.findall(r"^    (?:pub(?:\(crate\))? )?(\w+): ([^\n]*),$", body, re.M)
    return found


def header():
    """The structs of the header, and the names of their members."""
    text = re.sub(r"/\*.*?\*/", "", (TOP / "include/cqlp.h").read_text("utf-8"), flags=re.S)
    return {name: re.findall(r"(\w+)(?:\[\w+\])?;", body) for name, body in re.findall(r"typedef struct (\w+) \{(.*?)\} \1;", text, re.S)}


STRUCTS, HEADER = sources(), header()


def laid(kind):
    """How many bytes a type has, and to how many it is aligned."""
    if kind in NUMBERS:
        return NUMBERS[kind], NUMBERS[kind]
    if kind.startswith("*"):
        return 8, 8
    if array := re.fullmatch(r"\[(\w+); (\d+)\]", kind):
        size, aligned = laid(array.group(1))
        return size * int(array.group(2)), aligned
    end, most = 0, 1
    for _, offset, size, aligned in members(kind):
        end, most = offset + size, max(most, aligned)
    return up(end, most), most


def up(offset, aligned):
    return -(-offset // aligned) * aligned


def members(struct):
    """The members of a struct: their names, offsets, sizes and alignments."""
    end = 0
    for name, kind in STRUCTS[struct]:
        size, aligned = laid(kind)
        offset = up(end, aligned)
        yield name, offset, size, aligned
        end = offset + size


def named(struct, names, base=0):
    """The same, as the header names them: what it has no member for has its own members there."""
    for (name, offset, size, _), (_, kind) in zip(members(struct), STRUCTS[struct]):
        if name in names:
            yield name, base + offset, size
        else:
            yield from named(kind, names, base + offset)


def lines():
    there = {NAMES.get(name, re.sub(r"(?<!^)([A-Z])", r"_\1", name).lower()): name for name in STRUCTS}
    for struct, names in HEADER.items():
        found = list(named(there[struct], names))
        if sorted(name for name, _, _ in found) != sorted(names):
            sys.exit(f"{struct} has other members in include/cqlp.h than in the sources")
        yield f"SIZE({struct}, {laid(there[struct])[0]})"
        yield from (f"MEMBER({struct}, {name}, {offset}, {size})" for name, offset, size in found)


if __name__ == "__main__":
    text = "".join(line + "\n" for line in lines())
    sys.stdout.write(HEAD + text + f"NUMBER(0x{zlib.crc32(text.encode()):08X})\n")
