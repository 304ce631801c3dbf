#!/usr/bin/env python3
"""captures/merged.py FOLDER COMMAND..: prints what is wrong with what `cqlp merge` makes of summaries, beside what was counted here. Conversations with
three nodes are made up, of which all counts and times are known; each node's summary is taken, with few statements and with so many that its table is full,
and the sum has to be what is known: each count and each time where no table was full, else the sums of all names, and of each name no more than what may be
missing. Then objects that are made up here, of more names than have places; and lines that are refused."""
import collections
import itertools
import json
import os
import random
import struct
import subprocess
import sys
from decimal import Decimal
from pathlib import Path

START = 1_700_000_000 * 10**9
COUNTS = ("count", "errors", "unanswered", "rows", "bytes")
PLACES = 1024


def run(command, *words, text=None):
    done = subprocess.run([*command, *map(str, words)], input=text, stdout=subprocess.PIPE, stderr=subprocess.PIPE)
    return done.returncode, done.stdout, done.stderr.decode()


# ---- captures that are made up

def frame(version, stream, opcode, body):
    return struct.pack(">BBhBI", version, 0, stream, opcode, len(body)) + body


def query(text):
    return struct.pack(">I", len(text)) + text.encode() + struct.pack(">HB", 1, 0)


def packet(time, source, target, number, content):
    tcp = struct.pack(">HHIIBBHHH", source[1], target[1], number, 1, 0x50, 0x18, 65535, 0, 0) + content
    ip = struct.pack(">BBHHHBBH4s4s", 0x45, 0, 20 + len(tcp), 0, 0, 64, 6, 0, source[0], target[0]) + tcp
    return time, struct.pack("<IIII", time // 10**9, time % 10**9, len(ip), len(ip)) + ip


def talk(exchanges, node):
    """The packets of a connection: each request is answered before the next one, by VOID or by an ERROR, or never."""
    client, server, numbers, packets = (bytes([10, 0, 1, node]), 40_000 + node), (bytes([10, 0, 0, node]), 9042), [1, 1], []
    for at, (time, text, took, kind) in enumerate(exchanges):
        asked = frame(4, at % 30_000, 7, query(text))
        packets.append(packet(START + time, client, server, numbers[0], asked))
        numbers[0] += len(asked)
        if kind != "unanswered":
            body = struct.pack(">I", 1) if kind == "void" else struct.pack(">IH", 0x2200, 3) + b"bad"
            answer = frame(0x84, at % 30_000, 8 if kind == "void" else 0, body)
            packets.append(packet(START + time + took, server, client, numbers[1], answer))
            numbers[1] += len(answer)
    return packets


def write_capture(path, packets):
    head = struct.pack("<IHHiIII", 0xA1B23C4D, 2, 4, 0, 0, 1 << 20, 101)
    path.write_bytes(head + b"".join(content for _, content in sorted(packets, key=lambda each: each[0])))


def made_up(r, statements, count):
    """So many exchanges, few statements often and many seldom."""
    time, exchanges = r.randrange(10**9), []
    for _ in range(count):
        at = min(int(r.expovariate(6 / statements)), statements - 1)
        took = r.choice([r.randrange(64), r.randrange(10**6), r.randrange(10**8), 10**6 * (statements - at)])
        exchanges.append((time, f"SELECT c{at} FROM ks.t WHERE k = ?", took, r.choice(["void"] * 8 + ["error", "unanswered"])))
        time += took + r.randrange(1, 10**7)
    return exchanges


# ---- what is known of them

class Known:
    """What is counted of a name."""

    def __init__(self):
        self.counts, self.times, self.seen = collections.Counter(), [], []

    def add(self, time, text, took, kind):
        self.counts["count"] += 1
        self.counts["bytes"] += 9 + len(query(text))
        self.seen.append(time)
        if kind == "unanswered":
            self.counts["unanswered"] += 1
            return
        self.counts["errors"] += kind == "error"
        self.counts["bytes"] += 9 + (4 if kind == "void" else 9)
        self.times.append(took)

    def buckets(self):
        return dict(collections.Counter(greatest_of(time) for time in self.times))

    def at_rank(self, hundredths):
        """The time at a rank, as its bucket says it."""
        rank, times = len(self.times) - len(self.times) * (100 - hundredths) // 100, sorted(self.times)
        return min(greatest_of(times[rank - 1]), times[-1]) if times else None


def greatest_of(time):
    """The greatest time of the bucket of a time: it has its first six binary digits, and then ones."""
    width = 1 << max(time.bit_length() - 6, 0)
    return time // width * width + width - 1


def known_of(nodes):
    known = collections.defaultdict(Known)
    for each in itertools.chain(*nodes):
        known[each[1]].add(*each)
    return known


def nanoseconds(seconds):
    return None if seconds is None else int(Decimal(str(seconds)) * 10**9)


def objects(lines):
    return [json.loads(line, parse_float=Decimal) for line in lines.decode().splitlines()]


def buckets_of(each):
    return {nanoseconds(time): int(count) for time, count in each["buckets"]}


def differs(each, of):
    """What an object says otherwise than what is known."""
    said = {key: int(each[key]) for key in COUNTS} | {"time": nanoseconds(each["time"]), "buckets": buckets_of(each), "max": nanoseconds(each["max"])}
    said |= {f"p{rank}": nanoseconds(each[f"p{rank}"]) for rank in (50, 95, 99)}
    want = {key: of.counts[key] for key in COUNTS} | {"time": sum(of.times), "buckets": of.buckets(), "max": max(of.times, default=None)}
    want |= {f"p{rank}": of.at_rank(rank) for rank in (50, 95, 99)}
    return {key: (said[key], want[key]) for key in said if said[key] != want[key]}


def look_at_sums(what, found, known):
    """All names together are counted exactly."""
    for key in COUNTS:
        said, want = sum(int(each[key]) for each in found), sum(of.counts[key] for of in known.values())
        if said != want:
            print(f"{what}: {key} {said}, and not {want}")
    said, want = sum(nanoseconds(each["time"]) for each in found), sum(sum(of.times) for of in known.values())
    if said != want:
        print(f"{what}: time {said}, and not {want}")
    said, want = collections.Counter(), collections.Counter()
    for each in found:
        said.update(buckets_of(each))
    for of in known.values():
        want.update(of.buckets())
    if said != want:
        print(f"{what}: other buckets")


def look_at_missing(what, found, times):
    """Of each name no more is missing than is said, and of one that is not there no more than of the least."""
    names = {each["name"]: each for each in found if each["name"] is not None}
    for name, time in times.items():
        said = nanoseconds(names[name]["time"]) if name in names else 0
        most = said + nanoseconds(names[name]["missing"]) if name in names else None
        if said > time or most is not None and most < time:
            print(f"{what}: {name} took {time}, and {said} to {most} is said")
    if len(names) > PLACES:
        print(f"{what}: {len(names)} names")


def look_at_captures(room, command, r, statements, count):
    nodes = [made_up(r, statements, count) for _ in range(3)]
    files, packets = [], []
    for node, exchanges in enumerate(nodes):
        packets.append(talk(exchanges, node + 1))
        write_capture(room / "node.pcap", packets[-1])
        files.append(room / f"node{node}.json")
        files[-1].write_bytes(run(command, "capture", "--summary", "--json", "--literal", room / "node.pcap")[1])
    known, what = known_of(nodes), f"{statements} statements"
    status, out, err = run(command, "merge", "--json", *files)
    if status or err:
        print(f"{what}: status {status}: {err}")
    found = objects(out)
    look_at_sums(what, found, known)
    look_at_missing(what, found, {name: sum(of.times) for name, of in known.items()})
    is_full = any(each["name"] is None for file in files for each in objects(file.read_bytes()))
    if is_full != (statements > 256):
        print(f"{what}: the tables are {'' if is_full else 'not '}full")
    if not is_full:
        look_at_all(what, room, command, files, packets, found, known)


def look_at_all(what, room, command, files, packets, found, known):
    """Where no table was full, all is exact, in any order of the files, and as of the whole capture."""
    if sorted(each["name"] for each in found) != sorted(known):
        print(f"{what}: other names")
    for each in found:
        if wrong := differs(each, known[each["name"]]):
            print(f"{what}: {each['name']}: {wrong}")
    write_capture(room / "all.pcap", itertools.chain(*packets))
    for words in ([], ["--json"]):
        whole = run(command, "capture", "--summary", "--literal", *words, room / "all.pcap")[1].splitlines()
        for order in itertools.permutations(files):
            if sorted(run(command, "merge", *words, *order)[1].splitlines()) != sorted(whole):
                print(f"{what}: merge {' '.join(words)} of {[file.name for file in order]} is not the summary of all")
    for file in files:
        one = file.read_bytes()
        if run(command, "merge", "--json", file)[1] != one or run(command, "merge", "-", "--json", text=one)[1] != one:
            print(f"{what}: {file.name} alone is not as it was")


# ---- objects that are made up

def line(name, took, missing=0, by="statement", **more):
    of = Known()
    of.times, of.counts["count"] = ([took] if took else []), 1
    each = {"by": by, "name": name, "name_is_whole": True, **{key: of.counts[key] for key in COUNTS}, "first": None, "last": None, "time": seconds(took),
            "missing": seconds(missing), **{f"p{rank}": seconds(of.at_rank(rank)) for rank in (50, 95, 99)}, "max": seconds(max(of.times, default=None)),
            "buckets": [[seconds(greatest), count] for greatest, count in of.buckets().items()], **more}
    return json.dumps(each, ensure_ascii=False).replace('"<', "").replace('>"', "")


def seconds(time):
    return None if time is None else f"<{time // 10**9}.{time % 10**9:09}>"


def look_at_many(room, command, r):
    """More names than have places, in files whose tables were full: each has its heaviest names, and the others together."""
    for names, kept in ((1500, 2000), (3000, 700), (5000, 1300)):
        times, files, total = collections.Counter(), [], 0
        for at in range(4):
            one = {f"n{name}": r.randrange(1, 10**r.randrange(2, 9)) for name in r.sample(range(names), names * 2 // 3)}
            times.update(one)
            order = sorted(one, key=one.get, reverse=True)
            rows = [line(name, one[name]) for name in order[:kept]]
            rest = [one[name] for name in order[kept:]]
            rows += [line(None, sum(rest), count=len(rest))] if rest else []
            total += len(one)
            r.shuffle(rows)
            files.append(room / f"many{at}.json")
            files[-1].write_text("\n".join(rows) + "\n")
        status, out, err = run(command, "merge", "--json", *files)
        found, what = objects(out), f"{names} names, {kept} in a file"
        if status or err or sum(each["count"] for each in found) != total or sum(nanoseconds(each["time"]) for each in found) != sum(times.values()):
            print(f"{what}: status {status}, or other sums: {err}")
        look_at_missing(what, found, times)
        if len(found) != PLACES + 1:
            print(f"{what}: {len(found)} lines")


def look_at_lines(room, command):
    """Lines that are objects or none, each in the second file: what comes of them."""
    good, most = line("a", 5), 2**64 - 1
    no_object = "no object of cqlp capture --summary --json"
    refused = {"{": no_object, "[]": no_object, "1": no_object, '{"by":"statement"}': no_object, good + "x": no_object, "\xa0": no_object,
               line("a", 5, by="x"): no_object, line("a", 5, count=-1): no_object, line("a", 5, count=1.5): no_object, line("a", 5, count="1e3"): no_object,
               line("a", 5, count=""): no_object, line("a", 5, rows=most + 1): no_object, line(7, 5): no_object, line("a", 5, name_is_whole=1): no_object,
               line("a", 5, time=-1): no_object, line("a", 5, time="1e9"): no_object, line("a", 5, first=3): no_object, line("a", 5, last="now"): no_object,
               line("a", 5, buckets=[["<0.000000064>", 1]]): no_object, line("a", 5, buckets=[["<0.000000065>"]]): no_object,
               line("a", 5, buckets=[["<0.000000005>", 1, 1]]): no_object, line("a", 5, buckets={}): no_object, line("a", 5, p50=None): no_object,
               line("a", 5, by="client"): "by client, and one.json by statement",
               line("x" * 2**21, 5): f"{no_object}, whose lines have less than 1048576 bytes",
               line("\ud800", 5).encode("utf-8", "backslashreplace").decode(): no_object}
    (room / "one.json").write_text(f"{good}\n\n {good}\r\n")
    for text, why in refused.items():
        (room / "two.json").write_text(f"\n{text}\n{good}\n")
        status, out, err = run([*command], "merge", "one.json", "two.json")
        if (status, out, err) != (1, b"", f"cqlp: two.json:2: {why}\n"):
            print(f"{text[:200]}: {status} {out[:200]} {err[:200]}")
    accepted = {line("a", 5, count=str(most), rows=str(2**53 + 1)): {"count": most, "rows": 2**53 + 1},
                line("a", 5, time="9007199.254740993"): {"time": "9007199.254740998"}, line("\x1b[2J\u202e", 5): {"name": "\x1b[2J\u202e"},
                line("y" * 300, 5): {"name": "y" * 256, "name_is_whole": False}, line(None, 5): {"name": None},
                line("a", 5, first="2026-11-28T09:30:00.123456789Z", last="2026-11-28T09:30:01.000000000Z"): {"first": "2026-11-28T09:30:00.123456789Z"}}
    (room / "one.json").write_text("\n \t\r\n" + line("a", 5))
    for text, want in accepted.items():
        (room / "two.json").write_text(text)
        status, out, err = run(command, "merge", "--json", "one.json", "two.json")
        found = objects(out)[-1] if out else {}
        said = {key: int(found[key]) if isinstance(want[key], int) and not isinstance(want[key], bool) else found[key] for key in want if key in found}
        if status or err or {key: str(each) for key, each in said.items()} != {key: str(each) for key, each in want.items()}:
            print(f"{text[:200]}: {status} {said} {err}")
    (room / "two.json").write_text(line("\x1b[2J\u202e", 5))
    if b"\\x1b[2J\\xe2\\x80\\xae\n" not in (out := run(command, "merge", "two.json")[1]):
        print(f"the table shows a terminal {out}")
    (room / "none.json").write_text("")
    if run(command, "merge", "none.json")[1].split()[-1:] != [b"statement"] or run(command, "merge", "--json", "none.json")[1]:
        print("a file without lines has some")
    faults = {("none.json", "missing.json"): "cqlp: cannot open missing.json\n", (".",): "cqlp: read fault\n"}
    for words, want in faults.items():
        if (done := run(command, "merge", *words)) != (3, b"", want):
            print(f"merge {' '.join(words)}: {done}")
    with open("/dev/full", "wb") as full:
        done = subprocess.run([*command, "merge", "one.json"], stdout=full, stderr=subprocess.PIPE)
        if (done.returncode, done.stderr) != (3, b"cqlp: write fault\n"):
            print(f"merge to a full disk: {done}")


def main(room, *command):
    room, r = Path(room), random.Random(0x9e3779b97f4a7c15)
    room.mkdir(parents=True, exist_ok=True)
    command = [str(Path(command[0]).resolve()), *command[1:]] if "/" in command[0] else list(command)
    for statements, count in ((3, 40), (40, 600), (700, 4000)):
        look_at_captures(room, command, r, statements, count)
    look_at_many(room, command, r)
    os.chdir(room)
    look_at_lines(Path("."), command)


if __name__ == "__main__":
    main(*sys.argv[1:])
