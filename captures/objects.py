#!/usr/bin/env python3
"""captures/objects.py FILE COMMAND..: prints what is wrong with the objects (--json), the records (--csv) and the summary (--summary) that `cqlp capture`
writes of a capture, beside its lines, which lines.py reads in another way. Each object has to say what its line says, also with --utc and --ends and of those
that --kind leaves, all the same first moment, and those of a connection the same ends; each record what its object says; and each statement of the summary
what its lines add up to, with --by each table, client, node, opcode and error, also as JSON, with --every each interval, also as JSON, and with --histogram
the times of all."""
import collections
import csv
import datetime
import json
import re
import subprocess
import sys
from decimal import Decimal


def written(command, file, *options):
    done = subprocess.run([*command, *options, file], stdout=subprocess.PIPE, stderr=subprocess.PIPE, text=True)
    return done.stdout.splitlines(), (done.returncode, done.stderr)


def shown(text, is_whole):
    """A text as lines have it: those of the captures have no controls."""
    return text.replace("\\", "\\\\").replace('"', '\\"'), "" if is_whole else ".."


def quoted(text, is_whole):
    text, more = shown(text, is_whole)
    return f'"{text}"{more}'


def mark(of, side):
    """A frame's bytes, and what is said of them."""
    cut, packed = "" if of[f"{side}_is_whole"] else " cut", " compressed" if of[f"{side}_is_compressed"] else ""
    return f"{of[f'{side}_bytes']}{cut}{packed}"


def request(of):
    words = [of["request"], of["consistency"]]
    if of["statements"] is not None:
        words.append(str(of["statements"]))
    if of["statement"] is not None:
        words.append(quoted(of["statement"], of["statement_is_whole"]))
    if of["id"] is not None:
        words.append(of["id"] + ("" if of["statement_is_whole"] else ".."))
    if of["page_size"] is not None:
        words.append(f"page {of['page_size']}")
    if of["has_paging_state"]:
        words.append("next")
    return " ".join(word for word in [*words, mark(of, "request")] if word is not None)


def nodes(details):
    """How many nodes an ERROR counts, if it says all of these numbers."""
    if "required" not in details or None in (details[key] for key in details if key not in ("write_type", "data_present")):
        return
    level = details["consistency"]
    yield level if isinstance(level, str) else f"0x{level:04x}"
    yield f"alive {details['alive']} of {details['required']}" if "alive" in details else f"received {details['received']} of {details['required']}"
    if "failures" in details:
        yield f"failed {details['failures']}"


def warned(of):
    """The texts of warnings. Where not all of each is there, that is the last one, or the first one too."""
    texts = of.get("warning_texts", [])
    for number, text in enumerate(texts, 1):
        yield quoted(text, of["warning_is_whole"] if number == 1 else of["warning_texts_are_whole"] or number < len(texts))


def response(of):
    words = [of["result"] or of["response"]]
    if of["error"] is not None:
        words = ["ERROR", of["error"]]
    if of["message"] is not None:
        words.append(quoted(of["message"], of["message_is_whole"]))
    words += nodes(of.get("details", {}))
    if of["rows"] is not None:
        words.append(f"{of['rows']}x{of['columns']}")
    if of["has_more_pages"]:
        words.append("more")
    if of["warnings"] is not None:
        words.append(f"warnings {of['warnings']}")
    words += warned(of)
    if of["tracing_id"] is not None:
        words.append(f"tracing {of['tracing_id']}")
    return " ".join([*words, mark(of, "response")])


def line(of):
    """The line of an object, without its times."""
    both = {
        "exchange": lambda: f"{request(of)} -> {response(of)}",
        "unanswered": lambda: f"{request(of)} -> nothing" + (f" ({of['connection_end']})" if of["connection_end"] else ""),
        "unasked": lambda: f"nothing -> {response(of)}",
        "event": lambda: response(of),
    }[of["told"]]()
    return f"{of['connection']}:{of['stream']} {both}"


def differs(text, of):
    time, rest = text.split(" ", 1)
    took = None
    if of["told"] == "exchange":
        rest, took, _ = rest.rsplit(" ", 2)
    if Decimal(time) != of["time"] or (took is not None and Decimal(took) != of["took"] * 1000):
        return True
    return rest != line(of)


def first_moment(of):
    """When the first packet came by an object, in seconds since 1970."""
    moment = datetime.datetime.fromisoformat(of["utc"][:19] + "+00:00")
    return int(moment.timestamp()) + Decimal(of["utc"][19:-1]) - of["time"]


def name_of(of):
    """What a request is counted under in a summary by statement, with literals."""
    word = "BATCH " if of["request"] == "BATCH" else ""
    if of["statement"] is not None:
        return word + "".join(shown(of["statement"], of["statement_is_whole"]))
    if of["id"] is None:
        return of["request"]
    name = f"{of['request']} {of['id']}" + ("" if of["statement_is_whole"] else "..")
    return name if len(name) <= 256 else name[:256] + ".."


def sums(objects):
    """How often each statement was asked for, its errors, how many were not answered, its rows and bytes."""
    found = collections.OrderedDict()
    for of in objects:
        if of["told"] in ("exchange", "unanswered"):
            count = found.setdefault(name_of(of), [0, 0, 0, 0, 0])
            is_unanswered = of["told"] == "unanswered"
            sizes = of["request_bytes"] + of.get("response_bytes", 0)
            for at, more in enumerate([1, of.get("error") is not None, is_unanswered, of.get("rows") or 0, sizes]):
                count[at] += more
    return found


# White space and comments; a name in double quotes; a text, a number, a word or a sign.
BLANK = r"\s+|(?:--|//)[^\n\r]*|/\*.*?(?:\*/|\Z)"
PIECE = re.compile(BLANK + r"""|(?:"[^"]*")+(?!")|".*|'[^']*(?:'|\Z)|\$\$.*?(?:\$\$|\Z)|[0-9][\w.]*|\w+|.""", re.DOTALL)
NAME = re.compile(r'[^\W0-9]\w*|(?:"[^"]*")+')


def table_of(text, is_whole):
    """The table that a statement names, or None where it names none or more of the name may come."""
    pieces = [piece if piece[0] in "\"'" else piece.lower() for piece in PIECE.findall(text) if not re.fullmatch(BLANK, piece, re.DOTALL)]
    at = next((at for at, piece in enumerate(pieces) if piece in ("from", "into", "update", "truncate")), len(pieces))
    behind = pieces[at + 1 + (pieces[at : at + 2] == ["truncate", "table"]) :]
    count = 3 if behind[1:2] == ["."] else 1
    name = behind[:count]
    if len(name) < count or not all(map(NAME.fullmatch, name[::2])) or len(behind) == count and not is_whole:
        return None
    return "".join(name)


def name_by(what, of):
    """What a request is counted under with --by."""
    if what == "table":
        return of["statement"] and table_of(of["statement"], of["statement_is_whole"]) or of["request"]
    if what == "client":
        return of["client"].rpartition(":")[0].strip("[]")
    if what in ("node", "opcode"):
        return of[{"node": "node", "opcode": "request"}[what]]
    if of["told"] == "unanswered":
        return "unanswered"
    if of["response"] != "ERROR":
        return "cut" if of["took"] is None else "none"
    return of["error"] if isinstance(of["error"], str) else "ERROR" if of["error"] is None else f"0x{of['error']:08x}"


def milliseconds(nanoseconds):
    return f"{nanoseconds // 1_000_000}.{nanoseconds // 1_000 % 1_000:03}"


def nothing():
    """No requests: the counts of a name or an interval, the nanoseconds that each exchange took, and when each request began."""
    return [0, 0, 0, 0, 0], [], []


def count_in(counted, of):
    numbers, times, begun = counted
    begun.extend([of["utc"]] if of["utc"] else [])
    is_unanswered = of["told"] == "unanswered"
    is_error = not is_unanswered and (of["response"] == "ERROR" or of["took"] is None)
    sizes = of["request_bytes"] + of.get("response_bytes", 0)
    for at, more in enumerate([1, is_error, is_unanswered, max(of.get("rows") or 0, 0), sizes]):
        numbers[at] += more
    if of["took"] is not None and Decimal(of["took"]) >= 0:
        times.append(int(Decimal(of["took"]) * 1_000_000_000))


def counted_by(what, objects):
    """What is counted of each name of a summary by this."""
    found = collections.defaultdict(nothing)
    for of in objects:
        if of["told"] in ("exchange", "unanswered"):
            count_in(found[name_by(what, of)], of)
    return found


def rows_by(what, objects):
    """The numbers of each row of a summary by this, but for the share and the percentiles."""
    return {shown(name, True)[0]: [milliseconds(sum(times)), *map(str, numbers), milliseconds(max(times)) if times else "-"]
            for name, (numbers, times, _) in counted_by(what, objects).items()}


def seconds(nanoseconds):
    return Decimal(nanoseconds) / 1_000_000_000


def greatest_beside(time):
    """The greatest time of those that have their first six binary digits in common with this one."""
    dropped = max(time.bit_length() - 6, 0)
    return ((time >> dropped) + 1 << dropped) - 1


def percentile(ordered, hundredths):
    return min(greatest_beside(ordered[-(-len(ordered) * hundredths // 100) - 1]), ordered[-1])


def objects_by(what, objects):
    """The objects of a summary by this, by their names."""
    found = {}
    for name, (numbers, times, begun) in counted_by(what, objects).items():
        ordered, buckets = sorted(times), collections.Counter(map(greatest_beside, times))
        at = lambda hundredths: seconds(percentile(ordered, hundredths)) if ordered else None
        found[name] = {
            "by": what, "name": name, "name_is_whole": True, **dict(zip(("count", "errors", "unanswered", "rows", "bytes"), numbers)),
            "first": min(begun, default=None), "last": max(begun, default=None), "time": seconds(sum(times)), "missing": 0,
            "p50": at(50), "p95": at(95), "p99": at(99), "max": seconds(ordered[-1]) if ordered else None,
            "buckets": [[seconds(time), count] for time, count in sorted(buckets.items())],
        }
    return found


# What lines may have beside what they have without options.
STYLES = ((), ("--utc",), ("--ends",), ("--utc", "--ends"))


def utc_of(of):
    """When what an object says began, to the microsecond, or where that is not exact, to the nanosecond."""
    return "-" if of["utc"] is None else of["utc"].removesuffix("000Z").removesuffix("Z") + "Z"


def styled(text, of, style):
    """The line of an object in this style, by the line without options."""
    time, place, rest = text.split(" ", 2)
    ends = (of["client"], of["node"]) if "--ends" in style else ()
    return " ".join([utc_of(of) if "--utc" in style else time, place, *ends, rest])


# The names that --kind takes: of results, of responses and of errors.
KINDS = """VOID ROWS SET_KEYSPACE PREPARED SCHEMA_CHANGE RESULT ERROR READY AUTHENTICATE SUPPORTED EVENT AUTH_CHALLENGE AUTH_SUCCESS ServerError
    ProtocolError AuthenticationError Unavailable Overloaded IsBootstrapping TruncateError WriteTimeout ReadTimeout ReadFailure FunctionFailure WriteFailure
    SyntaxError Unauthorized Invalid ConfigError AlreadyExists Unprepared""".split()


def is_of_kind(kind, of):
    """Whether the response of an object, if it has one, is of the kind with this name."""
    return kind in (of.get("result"), of.get("response"), of.get("error"))


EVERY = "begin per_s count errors unanswered rows bytes p50_ms p95_ms p99_ms max_ms".split()
EVERY_KEYS = [name.removesuffix("_ms") for name in EVERY]


def over_at(of):
    """When the last byte of a request's response came, in nanoseconds since 1970, where that is known."""
    if of["told"] == "unanswered" or of["utc"] is None or of["took"] is None or Decimal(of["took"]) < 0:
        return None
    moment = datetime.datetime.fromisoformat(of["utc"][:19] + "+00:00")
    return int(moment.timestamp()) * 1_000_000_000 + int(of["utc"][20:-1]) + int(Decimal(of["took"]) * 1_000_000_000)


def intervals(width, objects):
    """The number of each interval of so many seconds, and what is counted in it: a request in the one in which it was over, or else in the last one so far."""
    found = []
    for of in objects:
        if of["told"] in ("exchange", "unanswered"):
            over = over_at(of)
            number = None if over is None else over // (width * 1_000_000_000)
            if not found or number is not None and (found[-1][0] is None or number > found[-1][0]):
                found.append((number, nothing()))
            count_in(found[-1][1], of)
    return found


def rows_every(width, objects):
    """The rows of a summary by intervals of so many seconds."""
    rows = []
    for number, (numbers, times, _) in intervals(width, objects):
        begin = "-" if number is None else datetime.datetime.fromtimestamp(number * width, datetime.timezone.utc).strftime("%Y-%m-%dT%H:%M:%SZ")
        rate, ordered = numbers[0] * 1_000 // width, sorted(times)
        at = [percentile(ordered, hundredths) for hundredths in (50, 95, 99)] + [ordered[-1]] if ordered else []
        rows.append([begin, f"{rate // 1_000}.{rate % 1_000:03}", *map(str, numbers), *(map(milliseconds, at) if at else "----")])
    return rows


def objects_every(width, objects):
    """Its objects, a text each."""
    texts = []
    for number, (numbers, times, _) in intervals(width, objects):
        begin = "null" if number is None else datetime.datetime.fromtimestamp(number * width, datetime.timezone.utc).strftime('"%Y-%m-%dT%H:%M:%S.000000000Z"')
        rate, ordered = numbers[0] * 1_000 // width, sorted(times)
        at = [f"{percentile(ordered, hundredths) / 10 ** 9:.9f}" for hundredths in (50, 95, 99)] + [f"{ordered[-1] / 10 ** 9:.9f}"] if ordered else ["null"] * 4
        values = [begin, f"{rate // 1_000}.{rate % 1_000:03}", *map(str, numbers), *at]
        texts.append("{" + ",".join(f'"{key}":{value}' for key, value in zip(EVERY_KEYS, values)) + "}")
    return texts


def row_of_interval(of):
    """The row of the object of an interval."""
    times = ["-" if of[key] is None else milliseconds(int(of[key] * 1_000_000_000)) for key in ("p50", "p95", "p99", "max")]
    begin = "-" if of["begin"] is None else of["begin"].replace(".000000000", "")
    return [begin, *(str(of[key]) for key in EVERY_KEYS[1:7]), *times]


# The names of the fields of --csv, which are keys of objects.
COLUMNS = """told time utc client node connection stream request request_bytes request_is_whole request_is_compressed statements statement id statement_is_whole
    consistency page_size has_paging_state response response_bytes response_is_whole response_is_compressed result error message message_is_whole rows columns
    has_more_pages warnings warning warning_is_whole warning_texts warning_texts_are_whole tracing_id took connection_end protocol version""".split()

# What a terminal may obey, and the backslash.
HIDDEN = re.compile("[\\0-\x1f\x7f-\x9f\u061c\u200e\u200f\u2028-\u202e\u2066-\u2069]|\\\\")


def field(value):
    """A value of an object, as a field of --csv has it."""
    if value is None:
        return ""
    if isinstance(value, list):
        return "; ".join(map(field, value))
    if isinstance(value, str):
        return HIDDEN.sub(lambda found: "\\\\" if found[0] == "\\" else "".join(f"\\x{byte:02x}" for byte in found[0].encode()), value)
    return str(value).lower() if isinstance(value, bool) else f"{value:f}" if isinstance(value, Decimal) else str(value)


def record_of(of):
    return [field(of.get(key)) for key in COLUMNS]


def read_records(lines):
    """The records of lines, none of which may have what a terminal obeys."""
    assert not any(found[0] != "\\" for line in lines for found in HIDDEN.finditer(line)), lines
    return list(csv.reader(lines, strict=True))


def histogram_of(objects):
    """The lines of a histogram: how many requests took a time below 32 nanoseconds, or from a power of two on and below the next."""
    numbers, times, _ = counted = nothing()
    for of in objects:
        if of["told"] in ("exchange", "unanswered"):
            count_in(counted, of)
    digits = collections.Counter(max(time.bit_length(), 5) for time in times)
    lines = ["      up_to_ms    count     %"]
    for width in range(min(digits, default=1), max(digits, default=0) + 1):
        bound, count, share = 2 ** width - 1, digits[width], digits[width] * 1_000 // len(times)
        bar = "#" * -(-count * 50 // max(digits.values()))
        lines.append(f" {bound // 1_000_000:6}.{bound % 1_000_000:06} {count:8} {share // 10:3}.{share % 10} {bar}".rstrip())
    return lines + [f"unanswered {numbers[2]}"] * (numbers[2] > 0)


# The types of values, as readers infer them: of numbers with a point and without, texts, and a name, or the number of what has none.
REAL, WHOLE, FLAG, TEXT, NAMED = {Decimal}, {int}, {bool}, {str}, {str, int}
TYPES = {
    "told": TEXT, "time": REAL, "utc": TEXT, "client": TEXT, "node": TEXT, "connection": WHOLE, "protocol": TEXT, "version": WHOLE, "stream": WHOLE,
    "request": TEXT, "request_bytes": WHOLE, "request_is_whole": FLAG, "request_is_compressed": FLAG, "statements": WHOLE, "statement": TEXT, "id": TEXT,
    "statement_is_whole": FLAG, "values": {list}, "values_are_whole": FLAG, "consistency": NAMED, "page_size": WHOLE, "has_paging_state": FLAG,
    "response": TEXT, "response_bytes": WHOLE, "response_is_whole": FLAG, "response_is_compressed": FLAG, "result": NAMED, "error": NAMED, "message": TEXT,
    "message_is_whole": FLAG, "details": {dict}, "rows": WHOLE, "columns": WHOLE, "has_more_pages": FLAG, "warnings": WHOLE, "warning": TEXT,
    "warning_is_whole": FLAG, "warning_texts": {list}, "warning_texts_are_whole": FLAG, "tracing_id": TEXT, "took": REAL, "connection_end": TEXT,
}


def untyped(of):
    """The members of an object whose value is of another type than that of their key."""
    return {key: value for key, value in of.items() if value is not None and type(value) not in TYPES.get(key, ())}


def read_objects(texts):
    objects = [json.loads(text, parse_float=Decimal) for text in texts]
    return {of["name"]: of for of in objects}


def rows_of(summary):
    """Those that a summary has."""
    rows = [text.split(None, 11) for text in summary]
    return {words[11]: [*words[1:7], words[10]] for words in rows}


def main(file, *command):
    lines, said = written(command, file)
    texts, said_of_objects = written(command, file, "--json")
    summary, said_of_summary = written(command, file, "--summary", "--literal")
    objects = [json.loads(text, parse_float=Decimal) for text in texts]
    if not said == said_of_objects == said_of_summary or len(lines) != len(objects):
        print("the ends differ")
    for text, of in zip(lines, objects):
        if differs(text, of):
            print(f"{text}\n{line(of)}")
    for of in filter(untyped, objects):
        print(f"of other types: {untyped(of)}")
    moments = set(map(first_moment, objects))
    connections = {of["connection"] for of in objects}
    if len(moments) > 1 or len({(of["connection"], of["client"], of["node"]) for of in objects}) != len(connections):
        print(f"not one beginning, or not one client and node of a connection: {moments}")
    for kind in KINDS:
        left = [text for text, of in zip(lines, objects) if is_of_kind(kind, of)]
        if written(command, file, "--kind", kind) != (left, said):
            print(f"--kind {kind}: other lines than {left}")
    for style in STYLES:
        due = [styled(text, of, style) for text, of in zip(lines, objects)]
        if written(command, file, *style) != (due, said):
            print(f"other lines with {style} than {due}")
    records, said_of_records = written(command, file, "--csv")
    if said_of_records != said or read_records(records) != [COLUMNS, *map(record_of, objects)]:
        print(f"other records than the objects: {records}")
    counted = {}
    for text in summary[1:]:
        words = text.split(None, 11)
        counted[words[11]] = [int(word) for word in words[2:7]]
    if counted != sums(objects):
        print(f"{counted}\n{dict(sums(objects))}")
    for what in ("table", "client", "node", "opcode", "error"):
        (heading, *rows), said_of_rows = written(command, file, "--summary", "--by", what)
        if said_of_rows != said or heading.split()[11:] != [what] or rows_of(rows) != rows_by(what, objects):
            print(f"by {what}: {rows_of(rows)}\n{rows_by(what, objects)}")
        counts, said_of_counts = written(command, file, "--summary", "--by", what, "--json")
        if said_of_counts != said or read_objects(counts) != objects_by(what, objects):
            print(f"by {what} as JSON: {counts}\n{objects_by(what, objects)}")
    if written(command, file, "--summary", "--histogram") != (histogram_of(objects), said):
        print(f"another histogram than {histogram_of(objects)}")
    for width in (1, 7, 60, 86_400):
        rows, said_of_rows = written(command, file, "--summary", "--every", str(width))
        if said_of_rows != said or [row.split() for row in rows] != [EVERY, *rows_every(width, objects)]:
            print(f"every {width}: {rows}\n{rows_every(width, objects)}")
        every, said_of_every = written(command, file, "--summary", "--every", str(width), "--json")
        if said_of_every != said or every != objects_every(width, objects):
            print(f"every {width} as JSON: {every}\n{objects_every(width, objects)}")
        if [row_of_interval(json.loads(text, parse_float=Decimal)) for text in every] != [row.split() for row in rows[1:]]:
            print(f"every {width}: {every}, and not {rows}")


if __name__ == "__main__":
    main(*sys.argv[1:])
