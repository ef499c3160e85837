#!/usr/bin/env python3
"""The change that docs/CONTRIBUTING.md works can be made: its differences are applied to a copy, one after the other, and after each one two files of tests
pass or fail as the page says. So is the one that docs/KERNEL.md works, of which nothing is proved here.

    tests/worked_change.py [LIBRARY]        LIBRARY is bindings/out/libgwb.so where none is given

The last line counts.
"""
import os
import re
import shutil
import subprocess
import sys
import tempfile
from pathlib import Path
from typing import Iterator, List

from counts import TOP, command_line, needs, there, told

CONTRIBUTING, KERNEL = TOP / 'docs' / 'CONTRIBUTING.md', TOP / 'docs' / 'KERNEL.md'
LIBRARY = TOP / 'bindings' / 'out' / 'libgwb.so'
# What the changes and the two tests read.
COPIED = ('companions', 'bindings/include', 'bindings/rust', 'tests', 'crates/lattice')
BUILT = shutil.ignore_patterns('out', 'target', '__pycache__')
# The files of tests that the page runs.
TESTS = ('test_session_export', 'test_forms')
# Whether each passes after each difference: the test, the change in Python, that in C++ and Rust.
OUTCOMES = ((False, True), (True, False), (True, True))


def differences(page: Path, wanted: int) -> List[str]:
    """Those of a page, of which there are so many."""
    found = re.findall(r'^```diff\n(.*?)^```$', page.read_text(), re.MULTILINE | re.DOTALL)
    assert len(found) == wanted, f'{page.name} has {len(found)} differences'
    return found


def applied(folder: Path, difference: str) -> str:
    """Applies it to the copy, and says what is wrong with it, or nothing."""
    done = subprocess.run(['git', 'apply'], cwd=folder, input=difference.encode(), capture_output=True, check=False)
    return done.stderr.decode() if done.returncode else ''


def passes(folder: Path, test: str, library: Path) -> bool:
    """Whether a test passes in the copy."""
    environment = {**os.environ, 'LIBRARY': str(library), 'PYTHONPATH': 'companions/tests', 'PYTHONDONTWRITEBYTECODE': '1'}
    return subprocess.run([sys.executable, '-m', 'unittest', test], cwd=folder, env=environment, capture_output=True, check=False).returncode == 0


def findings(folder: Path, library: Path) -> Iterator[str]:
    """What is wrong with each difference, and with each test after it, or nothing."""
    for name in COPIED:
        shutil.copytree(TOP / name, folder / name, ignore=BUILT)
    for number, (part, wanted) in enumerate(zip(differences(CONTRIBUTING, len(OUTCOMES)), OUTCOMES), 1):
        yield applied(folder, part)
        for test, passed in zip(TESTS, wanted):
            yield '' if passes(folder, test, library) == passed else f'{test} {"fails" if passed else "passes"} after difference {number}'
    yield from (applied(folder, part) for part in differences(KERNEL, 1))


def main() -> int:
    given = command_line(__doc__, library=LIBRARY)
    library = there(given.library, 'library')
    needs('git')
    with tempfile.TemporaryDirectory() as folder:
        return told(findings(Path(folder), library))


if __name__ == '__main__':
    sys.exit(main())
