#!/usr/bin/env python3
"""Runs the companions' tests of the Python session, and all others that need it, over the library that the environment variable GWB names.

    GWB=LIBRARY [GWB_TEST_STEP=STEP] tests/library_companions.py

With a step these are those of the session alone, in a lattice of that step, in millimetres; but for tests that say steps of their own, and those of text and
arrays, in which coordinates count steps: these run in whole millimetres, and are named.
"""
import os
import re
import sys
import unittest
from counts import TOP, closing, command_line, there

TESTS = TOP / 'companions' / 'tests'
sys.path.insert(0, str(TESTS))

from counting import tried  # noqa: E402
from support import OF_THE_LATTICE, STEP  # noqa: E402


def main():
    command_line(__doc__)
    if not os.environ.get('GWB'):
        print('GWB names no library', closing(0, 1), sep='\n')
        return 1
    there(os.environ['GWB'], 'library')
    opened = r'= (opened|bench_and_folder)\(self'
    mark = re.compile(rf'\bSTEP\b|\bstep_of\(|{opened}\)' if os.environ.get('GWB_TEST_STEP') else rf'\blibrary\(\)|{opened}')
    files = TESTS.glob('test_session*.py' if os.environ.get('GWB_TEST_STEP') else 'test_*.py')
    names = sorted(path.stem for path in files if mark.search(path.read_text(encoding='utf-8')))
    return tried(unittest.defaultTestLoader.loadTestsFromNames(names), told=lambda: [whole_millimetres()] if STEP != 1 else [])


def whole_millimetres():
    """What is said of tests of text and arrays."""
    return f'{len(OF_THE_LATTICE)} in whole millimetres: {", ".join(sorted(name.rpartition(".")[2] for name in OF_THE_LATTICE))}'


if __name__ == '__main__':
    sys.exit(main())
