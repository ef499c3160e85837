#!/usr/bin/env python3
"""Prints what a call of the library costs, as tables: nanoseconds, and in brackets instructions where valgrind is there.

    make -C bindings bench          # builds bench/library and runs this
"""
import argparse
import subprocess
import sys
from pathlib import Path

import callgrind

PROGRAM = str(Path(__file__).resolve().parent / 'library')


def measured():
    """(row, way): (calls in a round, nanoseconds of a call), in the order of the program."""
    lines = subprocess.run([PROGRAM], stdout=subprocess.PIPE, text=True, check=True).stdout.splitlines()
    cells = [line.split('\t') for line in lines]
    return {(row, way): (int(calls), float(nanoseconds)) for row, way, calls, nanoseconds in cells}


def counted():
    """(row, way): instructions in the last round, which is as those after it would be."""
    return {tuple(why.split('\t')): instructions for why, instructions in callgrind.dumps([PROGRAM]) if '\t' in why}


def text(cell, instructions):
    calls, nanoseconds = cell
    time = '{:,.0f}'.format(nanoseconds)
    return '%s (%s)' % (time, '{:,.0f}'.format(instructions / calls)) if instructions is not None else time


def table(cells, counts, ways):
    """A row for each that has one of the ways, and a column for each way."""
    rows = dict.fromkeys(row for row, way in cells if way in ways)
    print('| | %s |\n|---|%s' % (' | '.join(ways), '---|' * len(ways)))
    for row in rows:
        told = [text(cells[row, way], counts.get((row, way))) if (row, way) in cells else '' for way in ways]
        print('| %s | %s |' % (row, ' | '.join(told)))
    print()


def main():
    argparse.ArgumentParser(description=__doc__, formatter_class=argparse.RawDescriptionHelpFormatter).parse_args()
    if not Path(PROGRAM).is_file():
        raise SystemExit('bench/library.py: there is no bench/library: make -C bindings bench builds it, and runs this')
    cells = measured()
    counts = counted() if callgrind.is_there() else {}
    ways = list(dict.fromkeys(way for _, way in cells))
    if not any(way.startswith('CGAL') for way in ways):
        print("CGAL is left out: its headers (Debian: libcgal-dev) aren't there.")
    if not counts:
        print('Instructions are left out: there is no valgrind.')
    print('Nanoseconds a call%s:\n' % (' (instructions)' if counts else ''))
    table(cells, counts, [way for way in ways if way != 'call'])
    table(cells, counts, ['call'])
    return 0


if __name__ == '__main__':
    sys.exit(main())
