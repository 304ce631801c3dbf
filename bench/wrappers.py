#!/usr/bin/env python3
"""Times the packages for Python and Go over the library of cargo and over the proved one, in turn, beside released drivers: wrappers.py [ROUNDS]

$CQLP_LIBRARY and $CQLP_LIBRARY_PROVED name the libraries, as for ratios.py, each with libcqlp.so beside libcqlp.a; `-` marks what is not on this machine.
All read the same pages of pages.py in memory. A time is that of the processor, the garbage collector's included, the least of ROUNDS processes (5), each of
which reads a page three times. The drivers are Debian's python3-cassandra and golang-github-gocql-gocql-dev, or the gocql of the GOPATH that $GOCODE names.
"""
import os
import pathlib
import shutil
import subprocess
import sys
import tempfile

HERE = pathlib.Path(__file__).resolve().parent
TOP = HERE.parent
GOCODE = pathlib.Path(os.environ.get('GOCODE', '/usr/share/gocode'))
GOCQL = pathlib.Path('src/github.com/gocql/gocql')
# Of each language the pages, with their rows, and the readers; the first is the driver's.
PYTHON = ['rows 1000000', 'rows 200000', 'collections 40000', 'columns 1000', 'blobs 32'], ['driver', 'rows', 'list(rows)', 'columns', 'arrays']
GO = ['rows 200000', 'collections 40000', 'columns 1000'], ["gocql's Scan", 'Decode', 'Next', 'Scan', 'Scan of a struct', 'Values', 'ColumnReader']


def page(room, words):
    file = room / 'page'
    with open(file, 'wb') as out:
        subprocess.run([sys.executable, HERE / 'pages.py', *words.split()], stdout=out, check=True)
    return str(file)


def times(command, environment):
    """The milliseconds of each reader, of what a program that times them prints."""
    said = subprocess.run(command, env={**os.environ, **environment}, stdout=subprocess.PIPE, stderr=subprocess.DEVNULL, text=True, check=True).stdout
    return {name: float(spent) for name, _, spent in (line.split('\t') for line in said.splitlines())}


def least(rounds, programs):
    """Of each program, which run in turn, the least time of each reader."""
    runs = [[program and times(*program) for program in programs] for _ in range(rounds)]
    return [{name: min(run[at][name] for run in runs) for name in runs[0][at]} if programs[at] else {} for at in range(len(programs))]


def cell(form, found):
    return '-' if found is None else format(found, form)


def ratio(one, other):
    return None if one is None or other is None else one / other


def print_table(title, readers, found):
    """A line a page: the driver, and each reader over each library; and below it the ratios."""
    driver, *ours = readers
    heads = ['page', driver, *(head for name in ours for head in (f'`{name}`, cargo', 'proved'))]
    print(f'\n{title}\n\n| {" | ".join(heads)} |\n|{"---|" * len(heads)}')
    for words, (cargo, proved) in found.items():
        cells = [cargo.get(driver, proved.get(driver)), *(of.get(name) for name in ours for of in (cargo, proved))]
        print(f'| {words} | {" | ".join(cell(".1f", it) for it in cells)} |')
    for name in ours:
        of_each = [(ratio(proved.get(name), cargo.get(name)), ratio(cargo.get(driver), cargo.get(name))) for cargo, proved in found.values()]
        print(f'{name}: proved / cargo {", ".join(cell(".2f", one) for one, _ in of_each)}; {driver} / cargo {", ".join(cell(".2f", one) for _, one in of_each)}', flush=True)


def libraries():
    return [os.environ.get(name) and pathlib.Path(os.environ[name]).resolve() for name in ('CQLP_LIBRARY', 'CQLP_LIBRARY_PROVED')]


def python_programs(room):
    # Debian's driver is of Debian's Python.
    has_driver = shutil.which('/usr/bin/python3') and not subprocess.run(['/usr/bin/python3', '-c', 'import cassandra'], stderr=subprocess.DEVNULL).returncode
    command = ['/usr/bin/python3' if has_driver else sys.executable, '-W', 'ignore', HERE / 'bindings.py']
    return [it and (command, {'CQLP_LIBRARY': str(it.with_suffix('.so')), 'PYTHONPATH': str(TOP / 'bindings/python')}) for it in libraries()]


def go_program(room, library):
    """The program of gocql/, over a library. gocql has a file more in it; and the package lies in it as it lies here."""
    room.mkdir()
    shutil.copytree(GOCODE / GOCQL, room / GOCQL, ignore=shutil.ignore_patterns('*_test.go'))
    shutil.copy(HERE / 'gocql/iter.go.txt', room / GOCQL / 'iter_of.go')
    top = room / 'src/top'
    shutil.copytree(TOP / 'bindings/go', top / 'bindings/go')
    shutil.copytree(TOP / 'include', top / 'include')
    (top / 'bindings/out').mkdir()
    shutil.copy(library, top / 'bindings/out/libcqlp.a')
    (room / 'src/program').mkdir()
    shutil.copy(HERE / 'gocql/main.go', room / 'src/program')
    words = {**os.environ, 'GO111MODULE': 'off', 'GOPATH': f'{room}:{GOCODE}', 'GOFLAGS': ''}
    subprocess.run(['go', 'build', '-o', room / 'program', '.'], cwd=room / 'src/program', env=words, check=True)
    return [room / 'program'], {}


def go_programs(room):
    if not shutil.which('go') or not (GOCODE / GOCQL).is_dir():
        sys.exit(f'Go is left out, since it, or gocql in {GOCODE}, is not on this machine')
    return [it and go_program(room / f'go{at}', it) for at, it in enumerate(libraries())]


def measure(title, language, programs, room, rounds, words_of):
    pages, readers = language
    found = {}
    for words in pages:
        file = page(room, words)
        found[words] = least(rounds, [it and ([*it[0], *words_of(words, file)], it[1]) for it in programs])
    print_table(title, readers, found)


def main(rounds=5):
    with tempfile.TemporaryDirectory() as folder:
        room = pathlib.Path(folder)
        measure('Python, in ms', PYTHON, python_programs(room), room, int(rounds), lambda words, file: [file])
        measure('Go, in ms for a million rows', GO, go_programs(room), room, int(rounds), lambda words, file: [words.split()[0], file, '3'])


if __name__ == '__main__':
    main(*sys.argv[1:])
