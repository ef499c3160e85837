#!/usr/bin/env python3
"""Runs all tests of the companions. The last line says how many passed, failed and were skipped; those are named before it.

    companions/tests/run.py [PROGRAM [LIBRARY]]

PROGRAM is what GWB names, or crates/gwb/out/gwb, where none is given; LIBRARY is bindings/out/libgwb.so. Where there is no library, what needs it, the
session in Python, is named as skipped: tests/library_companions.py tries that. GWB_TEST_STEP may name the step of sessions, such as 1/1000, which is 1 else.
"""

import argparse
import os
import sys
import unittest

from counting import tried
from support import REPOSITORY, TESTS


def main() -> int:
    """The status: 0 where no test failed."""
    parser = argparse.ArgumentParser('companions/tests/run.py', description=__doc__, formatter_class=argparse.RawDescriptionHelpFormatter)
    parser.add_argument('program', nargs='?', metavar='PROGRAM', default=os.environ.get('GWB') or REPOSITORY / 'crates' / 'gwb' / 'out' / 'gwb')
    parser.add_argument('library', nargs='?', metavar='LIBRARY')
    given = parser.parse_args()
    program = os.path.abspath(given.program)
    if not os.path.isfile(program):
        print(f'there is no program {program}', '0 passed, 1 failed', sep='\n')
        return 1
    library = os.path.abspath(given.library or REPOSITORY / 'bindings' / 'out' / 'libgwb.so')
    if given.library and not os.path.isfile(library):
        print(f'there is no library {library}', '0 passed, 1 failed', sep='\n')
        return 1
    os.environ['GWB'], os.environ['LIBRARY'] = program, library
    return tried(suite(os.path.isfile(library)))


def suite(has_library: bool) -> unittest.TestSuite:
    """All tests; without a library those of the session are one that is skipped."""
    found = unittest.TestSuite()
    for path in sorted(TESTS.glob('test_*.py')):
        if has_library or not path.stem.startswith('test_session'):
            found.addTest(unittest.defaultTestLoader.loadTestsFromName(path.stem))
    if not has_library:
        found.addTest(TheSession())
    return found


class TheSession(unittest.TestCase):
    """Stands for the tests of the session in Python."""

    def runTest(self) -> None:
        """They need the library."""
        self.skipTest('the session in Python needs the library')


if __name__ == '__main__':
    sys.exit(main())
