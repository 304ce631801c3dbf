#!/usr/bin/env python3
"""Writes bindings/names.txt, which the tests of cqlp_name read, to standard output: bindings/names.py > bindings/names.txt

Each line is a group of numbers as include/cqlp.h has it, a number, and its word. Numbers and words are those of the sources of the
crates: cqlp_c/src/numbers.rt says which number a variant has for C, cqlp_text/src/names.rt which word it has in lines, and cqlp_grammar
has the codes of errors and the kinds of results. Names that only the standard has are in docs/PROTOCOL.md. The words in
include/cqlp.h have to spell the same names; where they do not, this says so and writes nothing.
"""
import pathlib
import re
import sys

TOP = pathlib.Path(__file__).resolve().parent.parent


def read(path):
    return (TOP / path).read_text("utf-8")


def camel(word):
    """`SET_KEYSPACE` is SetKeyspace."""
    return "".join(part.capitalize() for part in word.split("_"))


def constants(path, group=""):
    """The constants of a source whose names begin so, without that: their numbers."""
    found = re.findall(r"pub const %s(\w+): u\d+ = (\w+);" % group, read(path))
    return {word: int(number, 0) for word, number in found}


NUMBERS = "crates/cqlp_c/src/numbers.rt"
GROUPS = ("STOP", "END", "TAG", "MARK", "OPCODE", "FIELD", "KIND", "REASON", "PHASE", "REPLY")


def group_of(group, word_of):
    return {number: word_of(word) for word, number in constants(NUMBERS, group + "_").items()}


def codes():
    """Those of the sources, and the one that bindings/c/layout.c answers before a call comes to them."""
    named = {number: camel(word) for word, number in constants(NUMBERS).items() if word.split("_")[0] not in GROUPS}
    other = re.search(r"^#define CQLP_OTHER_LAYOUT (\d+)\b", read("include/cqlp.h"), re.M)
    return {**named, int(other.group(1)): "OtherLayout"}


def lines_have(enum, group):
    """Of each variant the number that C has, and the word that lines have."""
    constant = dict(re.findall(r"%s::(\w+) => %s_(\w+)," % (enum, group), read(NUMBERS)))
    words = dict(re.findall(r'%s::(\w+) => "(\w+)",' % enum, read("crates/cqlp_text/src/names.rt")))
    assert constant.keys() == words.keys(), "another enum %s" % enum
    numbers = constants(NUMBERS, group + "_")
    assert len(numbers) == len(words), "numbers of no variant of %s" % enum
    return {numbers[constant[variant]]: word for variant, word in words.items()}


def phases():
    numbers = constants(NUMBERS, "PHASE_")
    return {numbers[word]: variant for variant, word in re.findall(r"Phase::(\w+) => PHASE_(\w+),", read(NUMBERS))}


def limits():
    """The members of `Limits`, by the codes of `BadLimits`."""
    numbers = constants(NUMBERS)
    return {numbers[word]: variant.lower() for variant, word in re.findall(r"BadLimits::(\w+) => (BAD_\w+),", read(NUMBERS))}


def listed(what):
    """The names that a list of docs/PROTOCOL.md has."""
    text = re.search(r"^- %s[^:]*: (.*?)\.$" % what, read("docs/PROTOCOL.md"), re.M | re.S).group(1)
    return {int(number, 16): name for number, name in (pair.split() for pair in re.split(r",\s+", text))}


def errors():
    """The codes that cqlp_grammar knows have its names there."""
    names = listed("Errors")
    for word, number in constants("crates/cqlp_grammar/src/error_code.rt").items():
        assert names[number] == camel(word), "the error %04X has two names" % number
    table = re.search(r"\*\*Errors\*\* .*?\n\n(.*?)\n\n", read("docs/PROTOCOL.md"), re.S).group(1)
    assert names.keys() == {int(code, 16) for code in re.findall(r"\b[0-9A-F]{4}\b", table)}, "other codes have fields"
    return names


def results():
    return {number: camel(word) for word, number in constants("crates/cqlp_grammar/src/result_kind.rt").items()}


def all_names():
    return {
        "CODE": codes(),
        "STOP": group_of("STOP", camel),
        "END": group_of("END", str.lower),
        "TAG": group_of("TAG", camel),
        "MARK": group_of("MARK", str.lower),
        "OPCODE": lines_have("Opcode", "OPCODE"),
        "FIELD": lines_have("Field", "FIELD"),
        "KIND": lines_have("Kind", "KIND"),
        "REASON": lines_have("Reason", "REASON"),
        "PHASE": phases(),
        "REPLY": group_of("REPLY", camel),
        "LIMIT": limits(),
        "ERROR": errors(),
        "RESULT": results(),
        "CONSISTENCY": listed("Levels of consistency"),
        "BATCH": listed("Types of batches"),
    }


def check_header(names):
    """The header has each number under its name, and no other in these groups."""
    header = read("include/cqlp.h")
    defined = {word: int(number, 0) for word, number in re.findall(r"^#define CQLP_(\w+) (0x[0-9A-F]+|\d+)\b", header, re.M)}
    places = {word[len("GROUP_") :]: number for word, number in defined.items() if word.startswith("GROUP_")}
    assert places == {group: number for number, group in enumerate(names, 1)}, "include/cqlp.h has other groups"
    for group, words in names.items():
        begin = "" if group == "CODE" else "BAD_" if group == "LIMIT" else group + "_"
        for number, word in words.items():
            plain = re.sub(r"\W|_", "", word).upper()
            spelled = [name for name, value in defined.items() if name.startswith(begin) and name[len(begin) :].replace("_", "") == plain]
            assert [defined[name] for name in spelled] == [number], "include/cqlp.h has not %s %d as %s" % (group, number, word)
        count = sum(name.startswith(begin) for name in defined)
        assert group in ("CODE", "LIMIT") or count == len(words), "include/cqlp.h has more in %s" % group


def main():
    names = all_names()
    check_header(names)
    for group, words in names.items():
        for number, word in sorted(words.items()):
            print(group, number, word)


try:
    main()
except AssertionError as fault:
    sys.exit("bindings/names.py: %s" % fault)
