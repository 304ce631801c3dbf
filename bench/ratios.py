#!/usr/bin/env python3
"""Times the program, the library for C and the encoder beside programs by hand, all in one run: ratios.py [ROUNDS]

The programs of each line run in turn, ROUNDS times (15), those that only read three times as often; a time is that of the processor, the least of them,
and a ratio is the time of what is by hand to that of ours, so that over 1 is faster than by hand. For batches what is by hand puts the same events. The program is both what
cargo compiles over dist/rust, or $CQLP, and the proved one, which `./prove` builds, or $CQLP_PROVED. So is the library for C: that of cargo is $CQLP_LIBRARY,
and the proved one $CQLP_LIBRARY_PROVED; bindings/build makes bindings/out/libcqlp.a of either. `-` marks what is not on this machine.
"""
import os
import pathlib
import re
import shutil
import subprocess
import sys
import tempfile

HERE = pathlib.Path(__file__).resolve().parent
TOP = HERE.parent
# How many events a page has, but for the few of its front.
EVENTS = {'rows': 4_000_000, 'collections': 3_600_000, 'columns': 1_000_000}
PAGES = ('rows', 'collections', 'columns', 'kinds', 'blobs')
OPTIONS = bytes([4, 0, 0, 0, 5, 0, 0, 0, 0])
WRITES = 20
BESIDE_HAND = ('by hand', 'cargo', 'proved', 'by hand / cargo', 'by hand / proved', 'proved / cargo')
# Each is a time by hand and one of ours.
RATIOS_OF_WRITING = [('checked', 'encode'), ('checked', 'cells'), ('trusting', 'encode'), ('trusting', 'append'), ('trusting', 'cells')]


def spent(command, given=None):
    """The milliseconds of the processor that a command takes."""
    with open(given or os.devnull, 'rb') as stream, open(os.devnull, 'wb') as out:
        child = subprocess.Popen(command, stdin=stream, stdout=out, stderr=out)
        _, status, used = os.wait4(child.pid, 0)
    child.returncode = os.waitstatus_to_exitcode(status)
    if child.returncode:
        sys.exit(f'{command}: status {child.returncode}')
    return (used.ru_utime + used.ru_stime) * 1e3


def least(rounds, tasks):
    """The least time of each of these tasks, which run in turn; None of those that are None."""
    runs = [[task and task() for task in tasks] for _ in range(rounds)]
    return [tasks[at] and max(min(run[at] for run in runs), 1e-3) for at in range(len(tasks))]


def shown_times(times):
    return ['-' if it is None else f'{it:.1f} ms' for it in times]


def print_times(name, times):
    print(f'| {name} | {" | ".join(shown_times(times))} |', flush=True)


def print_beside_hand(name, times):
    """Prints a row of times by hand, of what cargo compiles and of what is proved: by hand to each of these, and the proved one to the other."""
    hand, cargo, proved = times
    ratios = ['-' if one is None or other is None else f'{one / other:.2f}' for one, other in ((hand, cargo), (hand, proved), (proved, cargo))]
    print(f'| {name} | {" | ".join(shown_times(times))} | {" | ".join(ratios)} |', flush=True)


def table(*heads):
    print(f'\n| {" | ".join(heads)} |\n|{"---|" * len(heads)}', flush=True)


class Programs:
    """What is timed, compiled into a folder."""

    def __init__(self, room):
        self.room = room
        self.check, self.text, self.encode = (self.rust(it) for it in ('check', 'show', 'encode'))
        self.pages = self.cargo(HERE / 'pages', HERE / 'out', 'pages')
        self.rows = self.cargo(HERE / 'rows', HERE / 'out', 'rows')
        self.cqlp = os.environ.get('CQLP') or self.program()
        self.proved = os.environ.get('CQLP_PROVED') or next((str(it) for it in [TOP / 'crates/cqlp/out/cqlp'] if it.exists()), None)
        self.batches = [self.c(name, 'bindings/c/speed.c', os.environ.get(name)) for name in ('CQLP_LIBRARY', 'CQLP_LIBRARY_PROVED')]
        self.puts = [self.c(f'{name}.put', 'bench/put.c', os.environ.get(name)) for name in ('CQLP_LIBRARY', 'CQLP_LIBRARY_PROVED')]
        self.columns = [self.c(f'{name}.columns', 'bench/columns.c', os.environ.get(name)) for name in ('CQLP_LIBRARY', 'CQLP_LIBRARY_PROVED')]
        self.events = self.c('events', 'bench/events.c', '')
        self.ways = {'checked': (self.encode, 'checked'), 'trusting': (self.encode, '')}
        self.ways.update({name: (self.pages, how) for name, how in (('encode', ''), ('append', 'append'), ('cells', 'cells'))})

    def rust(self, name):
        made = self.room / name
        subprocess.run(['rustc', '--edition', '2021', '-O', '-C', 'codegen-units=1', '-o', made, HERE / f'{name}.rs'], check=True)
        return str(made)

    def cargo(self, package, target, name):
        subprocess.run(['cargo', 'build', '--release', '--offline', '--quiet', '--manifest-path', package / 'Cargo.toml', '--target-dir', target], check=True)
        return str(target / 'release' / name)

    def program(self):
        """The program that cargo builds for `./cqlp`."""
        subprocess.run([TOP / 'cqlp', '--version'], check=True, stdout=subprocess.DEVNULL)
        return str(TOP / 'dist/out/program/target/release/cqlp')

    def of_both(self, command, page):
        """The tasks of a command of the program as cargo compiles it, and of the proved one."""
        return [it and (lambda it=it: spent([it, command, page])) for it in (self.cqlp, self.proved)]

    def c(self, name, source, library):
        """A program in C: what counts the events that cqlp_next puts, in batches; what puts as many and decodes nothing."""
        made = self.room / name
        if library is None or not shutil.which('cc'):
            return None
        subprocess.run(['cc', '-O2', f'-I{TOP}/include', '-o', made, TOP / source, *filter(None, [library])], check=True)
        return str(made)

    def page(self, name):
        page = self.room / name
        with open(page, 'wb') as out:
            subprocess.run([sys.executable, HERE / 'pages.py', name], stdout=out, check=True)
        return str(page)

    def task(self, words):
        """A file with a line for a program that writes a page in memory, as it takes it on standard input."""
        file = self.room / words.replace(' ', '.')
        file.write_text(words + '\n')
        return str(file)


def read_tables(programs, pages, rounds):
    table('`check`', *BESIDE_HAND)
    for name in ('rows', 'collections', 'columns', 'blobs'):
        print_beside_hand(name, least(rounds, [lambda: spent([programs.check, pages[name]]), *programs.of_both('check', pages[name])]))
    batches_table(programs, pages, rounds)
    columns_table(programs, pages, rounds)
    table('events written alone', '`cqlp check`', 'events of 72 bytes, decoding nothing')
    for name, many in EVENTS.items():
        print_times(name, least(rounds, [lambda: spent([programs.cqlp, 'check', '-'], pages[name]), programs.events and (lambda: spent([programs.events, str(many), '256']))]))


def batches_table(programs, pages, rounds):
    """Batches of 256 events and of 64, beside a reader by hand that puts the same events."""
    table('batches from C', *BESIDE_HAND)
    for name in ('rows', 'collections', 'columns'):
        page = pages[name]
        hand = lambda: spent([programs.check, page, 'events'])
        for room in ('256', '64'):
            of_both = [it and (lambda it=it: spent([it, room], page)) for it in programs.batches]
            print_beside_hand(f'{name}, {room}', least(rounds, [hand, *of_both]))


def columns_table(programs, pages, rounds):
    """The cells of a page, put into columns from C, 4,096 rows at a time."""
    table('columns from C', 'cargo', 'proved', 'proved / cargo')
    for name in ('rows', 'columns', 'kinds'):
        cargo, proved = times = least(rounds, [it and (lambda it=it: spent([it], pages[name])) for it in programs.columns])
        ratio = '-' if None in times else f'{proved / cargo:.2f}'
        print(f'| {name} | {" | ".join(shown_times(times))} | {ratio} |', flush=True)


def text_table(programs, pages, rounds):
    table('text', *BESIDE_HAND)
    for command in ('show', 'rows'):
        for name in PAGES:
            tasks = [lambda: spent([programs.text, command, pages[name]]), *programs.of_both(command, pages[name])]
            print_beside_hand(f'`{command}` {name}', least(rounds, tasks))


def writings(program, programs, page, how):
    """Writes a page once, and as often as WRITES says and once more."""
    return [lambda times=times: spent([program], programs.task(f'{page} {times} {how}'.strip())) for times in (1, 1 + WRITES)]


def encode_table(programs, rounds):
    """A time of one writing is the least of many of them less the least of one: a difference of one run and another is as often too small as too large."""
    table('writing', 'by hand, checked', 'trusting', '`encode`', '`append`', 'cell by cell', *(f'{one} / {other}' for one, other in RATIOS_OF_WRITING))
    for page in ('rows 1000000', 'collections 200000', 'columns 5000', 'blobs 96'):
        runs = least(rounds, [task for program, how in programs.ways.values() for task in writings(program, programs, page, how)])
        times = dict(zip(programs.ways, ((many - one) / WRITES for one, many in zip(runs[::2], runs[1::2]))))
        ratios = (f'{times[one] / times[other]:.2f}' for one, other in RATIOS_OF_WRITING)
        print(f'| {page} | {" | ".join(shown_times(times.values()))} | {" | ".join(ratios)} |', flush=True)


def put_times(program, page):
    """What bench/put.c says of one run: the milliseconds of cqlp_page_put, cqlp_page_measure and cqlp_encode."""
    with open(page, 'rb') as stream:
        said = subprocess.run([program, '1'], stdin=stream, capture_output=True, text=True, check=True).stdout
    measure, put, encode = (float(it) for it in re.findall(r'([0-9.]+) ms', said))
    return put, measure, encode


def put_table(programs, rounds):
    """Writing a page from C, of its events, beside the package's ways of writing the same values."""
    page = programs.room / 'rows.200000'
    with open(page, 'wb') as out:
        subprocess.run([sys.executable, HERE / 'pages.py', 'rows', '200000'], stdout=out, check=True)
    ways = [programs.ways[it] for it in ('cells', 'append')]
    runs = []
    for _ in range(rounds):
        of_rust = [task() for program, how in ways for task in writings(program, programs, 'rows 200000', how)]
        runs.append([of_rust, *(it and put_times(it, page) for it in programs.puts)])
    least_of = [min(run[0][at] for run in runs) for at in range(4)]
    cells, append = ((many - one) / WRITES for one, many in zip(least_of[::2], least_of[1::2]))
    cargo, proved = ([min(run[at][part] for run in runs) if programs.puts[at - 1] else None for part in range(3)] for at in (1, 2))
    table('a page from C', 'of the package', 'cargo', 'proved', 'cargo / package', 'proved / package', 'proved / cargo')
    for name, package, part in (('`cqlp_page_put`', cells, 0), ('`cqlp_page_measure`', None, 1), ('`cqlp_encode`', append, 2)):
        times = [package, cargo[part], proved[part]]
        ratios = ['-' if one is None or other is None else f'{one / other:.2f}' for one, other in zip((times[1], times[2], times[2]), (package, package, times[1]))]
        print(f'| {name} | {" | ".join(shown_times(times))} | {" | ".join(ratios)} |', flush=True)


def rows_table(programs, pages, rounds):
    """`cqlp::rows` and `feed` beside readers by hand, which the program of bench/rows times by itself."""
    table('rows of Rust types', 'by hand', 'the package', 'ratio')
    subprocess.run([programs.rows, str(rounds), *(pages[name] for name in ('rows', 'collections', 'columns'))], check=True)


def start_line(programs, rounds):
    frame = programs.room / 'options'
    frame.write_bytes(OPTIONS)
    times = least(10 * rounds, [it and (lambda it=it: spent([it, 'show', '-'], frame)) for it in (programs.cqlp, programs.proved)])
    print(f"\n`cqlp show -` of nine bytes, cargo and proved: {', '.join('-' if it is None else f'{it:.2f} ms' for it in times)}")


def main(rounds=15):
    with tempfile.TemporaryDirectory() as room:
        programs = Programs(pathlib.Path(room))
        print(f'{programs.cqlp} and {programs.proved or "no proved program"}, the least of {rounds} runs in turn')
        pages = {name: programs.page(name) for name in PAGES}
        read_tables(programs, pages, 3 * int(rounds))
        rows_table(programs, pages, int(rounds))
        text_table(programs, pages, int(rounds))
        encode_table(programs, int(rounds))
        put_table(programs, int(rounds))
        start_line(programs, int(rounds))


if __name__ == '__main__':
    main(*sys.argv[1:])
