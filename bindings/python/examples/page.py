"""Prints the rows of the pages in a file: python3 page.py FILE"""

import sys

import cqlp

try:
    for page in cqlp.Pages(sys.argv[1]):
        print(*("%s %s" % (column.name, column.type) for column in page.columns), sep=", ")
        for row in page:
            print(row)
except (cqlp.Refused, cqlp.Cut) as error:
    sys.exit(str(error))
