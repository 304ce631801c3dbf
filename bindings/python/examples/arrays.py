"""Reads the pages in a file as arrays of Apache Arrow, two rows at a time: python3 arrays.py FILE"""

import sys

import cqlp

for batch in cqlp.arrays(sys.argv[1], rows=2):
    print("from row", batch.first, "on:", batch.count, "of", batch.rows, "rows")
    for one in batch.arrays:
        print(one.column and one.column.name, one.values.hex(), list(one.offsets or ()), one.validity)
