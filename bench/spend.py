#!/usr/bin/env python3
"""Runs a command, and adds a line to a file: the milliseconds of the processor that it took, and the KiB that it had resident: spend.py FILE COMMAND [WORD..]

GNU's time measures the memory, since what is run by Python has had Python's; it counts the processor in steps of 10 ms.
"""
import os
import subprocess
import sys
import tempfile


def main(file, *command):
    with tempfile.NamedTemporaryFile('r') as said:
        child = subprocess.Popen(['/usr/bin/time', '-q', '-o', said.name, '-f', '%M', *command], stdout=subprocess.DEVNULL, stderr=subprocess.DEVNULL)
        _, _, used = os.wait4(child.pid, 0)
        child.returncode = 0
        with open(file, 'a') as spent:
            print(f'{(used.ru_utime + used.ru_stime) * 1e3:.3f}', said.read().strip(), file=spent)


if __name__ == '__main__':
    main(*sys.argv[1:])
