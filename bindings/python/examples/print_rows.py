"""Prints the rows of the pages in a file: python3 examples/print_rows.py FILE"""

import sys

import cqlp


def main() -> None:
    for page in cqlp.Pages(sys.argv[1]):
        print(", ".join("%s %s" % (column.name, column.type) for column in page.columns))
        for row in page:
            print(row)


main()
