"""Sums the columns of the pages in a file: python3 columns.py FILE"""

import sys
from array import array

import cqlp

for page in cqlp.columns(sys.argv[1], longest=1 << 20):
    for series in page.series:
        name, values = series.column and series.column.name, series.values
        if isinstance(values, array):
            print(name, values.typecode, sum(values), series.missing)
        else:
            print(name, len(values), values[-1])
