#!/usr/bin/env python3
"""Tries .ci/check on a small crate, over the libraries that `rt ci` left below it: as it is, with a wrong body, and after one below has changed.

    tests/check.py

All of it happens in a copy. The last line counts.
"""
import re
import shutil
import subprocess
import sys
import tempfile
from pathlib import Path
from typing import Iterator, NamedTuple

from counts import TOP, command_line, needs, there, told

CRATE = 'boundary_model'
BELOW = ('lattice', 'cyclic_list')
EDIT = 'mate_is_itself'


class Run(NamedTuple):
    """A call of .ci/check: why it is made, its words, the status wanted, and what it has to say, and not."""

    name: str
    words: str
    status: int
    says: str
    says_not: str = 'out of date'


def copied(folder: Path) -> None:
    """Copies the crate with those below it, and their libraries, which are newer than the sources."""
    shutil.copytree(TOP / '.ci', folder / '.ci')
    shutil.copy2(TOP / 'crates.txt', folder)
    for crate in (CRATE, *BELOW):
        shutil.copytree(TOP / 'crates' / crate, folder / 'crates' / crate, ignore=shutil.ignore_patterns('incremental', 'must-fail'))
    for crate in BELOW:
        (folder / 'crates' / crate / 'out' / 'rlib' / f'{crate}.rlib').touch()


def complaint(folder: Path, run: Run) -> str:
    """What is wrong with a call, or nothing."""
    words = [str(folder / '.ci' / 'check'), *run.words.split()]
    done = subprocess.run(words, stdout=subprocess.PIPE, stderr=subprocess.STDOUT, text=True, timeout=600, check=False)
    if done.returncode == run.status and run.says in done.stdout and run.says_not not in done.stdout:
        return ''
    return f'.ci/check {run.words}, {run.name}: status {done.returncode}, wanted {run.status} and {run.says!r}: {done.stdout[-600:]}'


def edited(folder: Path) -> None:
    """Puts a wrong body into the crate: the first pair of lines of an edit that has to be refused."""
    edit = (TOP / 'crates' / CRATE / 'must-fail' / f'{EDIT}.edit').read_text()
    file, old, new = (re.search(rf'^{word}: (.*)$', edit, re.MULTILINE) for word in ('file', 'old', 'new'))
    assert file and old and new
    path = folder / 'crates' / CRATE / file.group(1)
    path.write_text(path.read_text().replace(old.group(1), new.group(1)))


def findings(folder: Path) -> Iterator[str]:
    """For each call what is wrong, or nothing."""
    copied(folder)
    yield complaint(folder, Run('as it is', f'{CRATE} --jobs 1', 0, 'logic=proved'))
    yield complaint(folder, Run('from nothing, its slowest function named', f'{CRATE} --slowest 1', 0, f'the slowest:\n'))
    sources = folder / 'crates' / CRATE / 'src'
    kept = {path: path.read_text() for path in sources.rglob('*.rt')}
    edited(folder)
    yield complaint(folder, Run('with a wrong body', CRATE, 1, 'check took', 'logic=proved'))
    for path, text in kept.items():
        path.write_text(text)
    changed = folder / 'crates' / BELOW[-1] / 'src' / 'lib.rt'
    changed.write_text(changed.read_text() + '\n// a comment\n')
    yield complaint(folder, Run('where one below has changed', CRATE, 0, f'out of date: {BELOW[-1]} (has changed)', 'build took'))
    yield complaint(folder, Run('and that is built', f'{CRATE} --below', 0, f'{BELOW[-1]}: build took'))
    shutil.rmtree(folder / 'crates' / BELOW[0] / 'out')
    yield complaint(folder, Run('where one below is missing', CRATE, 2, f'not built are {BELOW[0]}'))
    yield complaint(folder, Run('with a name that is none', 'no_crate', 2, 'no_crate', 'took'))


def main() -> int:
    command_line(__doc__)
    needs('rt')
    for crate in BELOW:
        there(TOP / 'crates' / crate / 'out' / 'rlib' / f'{crate}.rlib' / 'format', 'library')
    with tempfile.TemporaryDirectory() as folder:
        return told(findings(Path(folder)))


if __name__ == '__main__':
    sys.exit(main())
