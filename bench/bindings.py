#!/usr/bin/env python3
"""Times the package for Python over a page of bench/pages.py, and the compiled reader of the released driver, where it is there: bindings.py FILE [ROUNDS]

The readers run in turn, ROUNDS times (3). A line has the name of each, the rows that it read, and the least milliseconds of the processor. CQLP_LIBRARY
names the library; wrappers.py beside this runs it over two.
"""
import gc
import sys
import time

import cqlp


def driver(data):
    """The rows that the released driver for Python reads of a page, by its reader in C where it was compiled."""
    from cassandra.protocol import ProtocolHandler

    return len(ProtocolHandler.decode_message(4, {}, 0, 0, 8, data[9:], None, None).parsed_rows)


def driver_here():
    """The driver, where it and its reader in C are on this machine."""
    try:
        from cassandra import row_parser  # noqa: F401
    except ImportError:
        return {}
    return {"driver": driver}


# `list(rows)` and `columns` hold what they read; `rows` and `arrays` do not.
READERS = {
    "rows": lambda data: sum(1 for _ in cqlp.rows(data)),
    "list(rows)": lambda data: len(list(cqlp.rows(data))),
    "columns": lambda data: sum(page.count for page in cqlp.columns(data)),
    "arrays": lambda data: sum(batch.count for batch in cqlp.arrays(data)),
}


def spent(read, data):
    """What a reader reads, and the milliseconds of the processor that it takes."""
    gc.collect()
    began = time.process_time()
    rows = read(data)
    return rows, (time.process_time() - began) * 1e3


def main(path, rounds=3):
    with open(path, "rb") as file:
        data = file.read()
    readers = {**driver_here(), **READERS}
    runs = [{name: spent(read, data) for name, read in readers.items()} for _ in range(int(rounds))]
    for name in readers:
        print(name, runs[0][name][0], min(run[name][1] for run in runs), sep="\t")


if __name__ == "__main__":
    main(*sys.argv[1:])
