"""Runs a suite of tests, and counts each of its tests once: as passed, failed or skipped."""

import sys
import unittest
from typing import Any, Callable, Iterable, TextIO


class _Counted(unittest.TextTestResult):
    """What became of the tests, and how many of them passed."""

    def __init__(self, *words: Any) -> None:
        super().__init__(*words)
        self.passed = 0

    def addSuccess(self, test: unittest.TestCase) -> None:
        """A test passed, with all its subtests."""
        super().addSuccess(test)
        self.passed += 1


def tried(suite: unittest.TestSuite, stream: TextIO = sys.stdout, told: Callable[[], Iterable[str]] = list) -> int:
    """Runs the suite, names what was skipped, writes the lines that are told of it then, and counts in the last line. A test whose class or module was skipped counts as skipped, one whose
    class or module could not be set up as failed. Gives the status: 0 where none failed."""
    planned = suite.countTestCases()
    result = unittest.TextTestRunner(stream=stream, resultclass=_Counted).run(suite)
    assert isinstance(result, _Counted)
    for test, reason in result.skipped:
        print(f'skipped: {test}: {reason}', file=stream)
    for line in told():
        print(line, file=stream)
    failed = len({getattr(test, 'test_case', test) for test, _ in result.failures + result.errors})
    others = planned - result.passed - failed
    skipped = others if result.skipped else 0
    print(f'{result.passed} passed, {failed + others - skipped} failed' + (f', {skipped} skipped' if skipped else ''), file=stream)
    return 0 if result.wasSuccessful() else 1
