#!/usr/bin/env python3
"""Times each command on each stream and each capture, as cargo compiles the program and as it is proved, in turn: both.py [BOUND] [ROUNDS]

A line says how many milliseconds of the processor cargo's program takes, and how many times as long the proved one. Each is the least of ROUNDS runs (7), and
of at least so many that the faster program has run for a third of a second. A command whose proved program takes more than BOUND times as long (1.15) is
gone through again after all others, three times at most, with twice as many runs each time, since a busy host slows single ones. The last line says how many of
how many are still over it, and the status is 1 if any are. $CQLP and $CQLP_PROVED name the programs, as for ratios.py.
"""
import os
import pathlib
import subprocess
import sys
import tempfile

sys.dont_write_bytecode = True
import ratios

HERE = ratios.HERE
STREAMS = {
    'rows': 'pages.py rows 200000', 'collections': 'pages.py collections 40000', 'columns': 'pages.py columns 1500', 'kinds': 'pages.py kinds 12000',
    'blobs': 'pages.py blobs 16', 'frames': 'mixed_frames.py 50000',
}
ON_STREAMS = [
    'check', 'check --skip', 'check --raw', 'check --parts --cell 1000', 'check --lenient', 'show', 'show --skip', 'show --raw', 'show --lenient', 'show --json',
    'rows', 'rows --skip', 'rows --raw', 'rows --json', 'rows --csv',
]
CAPTURES = {
    'driver': None, 'mixed': 20, 'thousand': 20, 'whole': 40, 'lost': 40, 'small': 10, 'few': 300, 'many': 100,
}
ON_CAPTURES = [
    '', '--json', '--csv', '--utc --ends', '--values', '--errors', '--slow 1', '--statement SELECT', '--statement-regex SELECT.*[0-9]', '--opcode QUERY',
    '--summary', '--summary --json', '--summary --by table', '--summary --by client', '--summary --every 1', '--summary --histogram', '--events',
    '--rows --connection 1', '--rows --connection 2',
]


def inputs(room):
    """The files that are read, by their names: streams, and captures."""
    for name, script in STREAMS.items():
        script, *words = script.split()
        with open(room / name, 'wb') as out:
            subprocess.run([sys.executable, HERE / script, *words], stdout=out, check=True)
    for name, size in CAPTURES.items():
        if size:
            subprocess.run([sys.executable, HERE / 'captures.py', name, room / f'{name}.pcap', str(size)], check=True)
    (room / 'driver.pcap').write_bytes((HERE.parent / 'captures/data/driver.pcap').read_bytes())
    for name in STREAMS:
        yield from (([*words.split(), room / name], f'{words} of {name}') for words in ON_STREAMS)
    for name in CAPTURES:
        port = ['--port', '36401'] if name == 'driver' else []
        yield from ((['capture', *port, *words.split(), room / f'{name}.pcap'], f'capture {words} of {name}'.replace('  ', ' ')) for words in ON_CAPTURES)


def spent(command):
    """The milliseconds of the processor that a command takes, whatever its status: a capture may have losses."""
    child = subprocess.Popen(command, stdin=subprocess.DEVNULL, stdout=subprocess.DEVNULL, stderr=subprocess.DEVNULL)
    _, status, used = os.wait4(child.pid, 0)
    child.returncode = os.waitstatus_to_exitcode(status)
    if child.returncode not in (0, 1):
        sys.exit(f'{command}: status {child.returncode}')
    return (used.ru_utime + used.ru_stime) * 1e3


def measure(programs, words, rounds):
    """The least time of each program."""
    first = [spent([program, *words]) for program in programs]
    rounds = max(rounds, int(333 * rounds / 7 / max(min(first), 0.1)))
    return [min(times) for times in zip(first, *([spent([program, *words]) for program in programs] for _ in range(rounds)))]


def go_through(programs, tasks, bound, rounds):
    """Writes a line for each task, and answers those that are over the bound."""
    over = []
    for words, name in tasks:
        cargo, proved = measure(programs, words, rounds)
        print(f'{proved / cargo:5.2f} {cargo:9.2f} ms  {name}', flush=True)
        if proved > bound * cargo:
            over.append((words, name))
    return over


def main(bound=1.15, rounds=7):
    programs = [os.environ.get('CQLP') or ratios.TOP / 'dist/out/program/target/release/cqlp', os.environ.get('CQLP_PROVED') or ratios.TOP / 'crates/cqlp/out/cqlp']
    with tempfile.TemporaryDirectory() as folder:
        tasks = list(inputs(pathlib.Path(folder)))
        over, rounds = go_through(programs, tasks, float(bound), int(rounds)), int(rounds)
        for again in range(3):
            if over:
                print(f'{len(over)} of {len(tasks)} over {bound}, once more:')
                rounds *= 2
                over = go_through(programs, over, float(bound), rounds)
    print(f'{len(over)} of {len(tasks)} over {bound}')
    return 1 if over else 0


if __name__ == '__main__':
    sys.exit(main(*sys.argv[1:]))
