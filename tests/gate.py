#!/usr/bin/env python3
"""No test passes by not running, none begins where it is asked for help, and the gate counts what its tests tell it.

    tests/gate.py

Each test that takes a program or a library is started on one that isn't there, and those that need tools where there are none. Each is asked for
help, and given a word that it doesn't take. What needs something built is started where it isn't. The gate, .ci/run, is run in a folder of its own, in
which `rt`, .ci/needs, .ci/archive, .ci/unused and all tests are stubs that print what they are to. The last line counts.
"""
import os
import re
import shutil
import subprocess
import sys
import tempfile
from pathlib import Path
from typing import Dict, Iterator, List, NamedTuple, Sequence

from counts import TOP, command_line, told, without

NOWHERE = '/nowhere'
# Each test on a file that isn't there; what stands in the place of the other files is one that is.
MISSING = [['tests/scripts.py', NOWHERE], ['tests/laws.py', NOWHERE], ['tests/program.sh', NOWHERE], ['tests/program.sh', '/bin/sh'],
           ['tests/refused_growths.py', NOWHERE], ['tests/documents.py', NOWHERE], ['companions/tests/run.py', NOWHERE],
           ['tests/direct_calls.py', NOWHERE], ['tests/direct_calls.py', '/bin/sh', NOWHERE],
           ['tests/library.sh', NOWHERE], ['tests/library.sh', '/bin/sh', NOWHERE],
           ['tests/library_lines.py', NOWHERE, '/bin/sh'], ['tests/library_lines.py', '/bin/sh', NOWHERE],
           ['tests/library_readers.py', NOWHERE], ['tests/unproved.py', NOWHERE], ['tests/dist.py', NOWHERE], ['tests/gallery.py', NOWHERE],
           ['tests/worked_change.py', NOWHERE], ['tests/library_refusals.py', NOWHERE],
           ['env', f'GWB={NOWHERE}', 'tests/library_companions.py'], ['env', '-u', 'GWB', 'tests/library_companions.py']]
# Each test that skips all that it does where a tool isn't there, or a part of it.
TOOLS = [['tests/refused_growths.py', '/bin/sh'], ['tests/direct_calls.py', '/bin/sh', '/bin/sh'], ['tests/library.sh', '/bin/sh'],
         ['tests/pages.py'], ['tests/versions.py'], ['tests/handed_on.py'], ['tests/unproved.py', '/bin/sh'],
         ['tests/dist.py', '/bin/sh', '/bin/sh'], ['tests/worked_change.py', '/bin/sh']]
# What needs something built, on what isn't there, and what its first line tells to type.
UNBUILT = [(['make', '-s', '-C', 'bindings', f'ARCHIVE={NOWHERE}', 'OUT={folder}'], 'rt lib'),
           (['make', '-s', '-C', 'bench', 'library', f'LIBRARY={NOWHERE}'], 'make -C bindings bench'),
           (['make', '-s', 'check', f'PROGRAM={NOWHERE}'], 'make try'),
           (['bench/run.py', '--program', NOWHERE], 'rt run')]
ALWAYS = ['sh', 'env', 'dirname', 'realpath', 'mktemp', 'rm', 'date']


def run(words: Sequence[str], folder: Path = TOP, **more: str) -> 'subprocess.CompletedProcess[str]':
    """The ended run of a command, with what it wrote to both outputs."""
    environment = {**os.environ, 'MAKEFLAGS': '', **more}
    return subprocess.run(words, cwd=folder, env=environment, stdout=subprocess.PIPE, stderr=subprocess.STDOUT, text=True, timeout=120)


def missing() -> Iterator[str]:
    """Where what is to be tried isn't there, a test says so in a line, and counts as failed."""
    for words in MISSING:
        done = run(words)
        lines = done.stdout.splitlines()
        is_so = done.returncode == 1 and len(lines) == 2 and lines[-1] == '0 passed, 1 failed'
        yield '' if is_so else f'{" ".join(words)}: status {done.returncode}: {done.stdout[-300:]}'


def unbuilt(folder: str) -> Iterator[str]:
    """Where what they need isn't built, commands say in a line what to type."""
    for words, told in (row for row in UNBUILT if shutil.which(row[0][0]) or row[0][0] != 'make'):
        done = run([word.format(folder=folder) for word in words])
        is_so = done.returncode != 0 and told in done.stdout.split('\n', maxsplit=1)[0]
        yield '' if is_so else f'{" ".join(words)}: status {done.returncode}: {done.stdout[-300:]}'


def without_tools(folder: Path) -> Iterator[str]:
    """Where a tool isn't there, what it is for is named and counted."""
    (folder / 'python3').symlink_to(sys.executable)
    for name in ALWAYS:
        (folder / name).symlink_to(shutil.which(name) or NOWHERE)
    for words in TOOLS:
        done = run(words, PATH=str(folder))
        lines = done.stdout.splitlines()
        named = [line for line in lines if line.startswith('skipped: ')]
        is_so = done.returncode == 0 and named and lines[-1].endswith(f', 0 failed, {len(named)} skipped')
        yield '' if is_so else f'{" ".join(words)} without tools: status {done.returncode}: {done.stdout[-300:]}'


def helped() -> Iterator[str]:
    """Each script prints what it does where it is asked for help, and refuses what it doesn't take. The gate is tried as a stub below."""
    scripts = [path for folder in ('tests', '.ci') for path in sorted((TOP / folder).iterdir()) if path.is_file() and os.access(path, os.X_OK)]
    scripts.append(TOP / 'companions' / 'tests' / 'run.py')
    for path in scripts:
        if path != TOP / '.ci' / 'run':
            help_, other = run([str(path), '--help']), run([str(path), '--no-such-word'])
            is_so = (help_.returncode, other.returncode) == (0, 2) and str(path.relative_to(TOP)) in help_.stdout
            yield '' if is_so else f'{path}: status {help_.returncode} for help, {other.returncode} for a word that it does not take'


class Case(NamedTuple):
    """A run of the gate: what it shows, what tests print in place of one test passed, the last line wanted, words before it, what rt leaves, and the
    words that the gate is given."""

    name: str
    prints: Dict[str, str]
    wanted: str
    said: str = ''
    files: Sequence[str] = ('crates/gwb/out/gwb', 'crates/direct_calls/out/direct_calls')
    words: Sequence[str] = ()


PASSED = '1 passed, 0 failed'
# In the last line wanted {all} is the number of parts that are run, {fewer} one fewer, and {others} has scripts.py with 5 or 3 in place of 1.
CASES = [
    Case('all pass', {}, '{all} passed, 0 failed, 1 skipped', 'skipped: rt ci left no crates/gwb/out/gwb.by-rattle'),
    Case('a test fails', {'tests/scripts.py': '5 passed, 2 failed'}, '{others} passed, 2 failed, 1 skipped', 'FAILED tests/scripts.py crates/gwb/out/gwb: 2'),
    Case('a comparison is wrong', {'tests/scripts.py': '5 compared, 2 wrong'}, '{others} passed, 2 failed, 1 skipped'),
    Case('a test skips', {'tests/pages.py': 'skipped: this: there is no that\n1 passed, 0 failed, 1 skipped'},
         '{all} passed, 0 failed, 2 skipped', 'skipped: tests/pages.py: this: there is no that'),
    Case('a test ends in an error', {'tests/quotes.py': 'Traceback'}, '{fewer} passed, 1 failed, 1 skipped', 'FAILED tests/quotes.py: status 0 after'),
    Case('a test counts below zero', {'tests/quotes.py': '-6 passed, 0 failed'}, '{fewer} passed, 1 failed, 1 skipped'),
    Case('a test tries nothing', {'tests/quotes.py': '0 passed, 0 failed'}, '{fewer} passed, 1 failed, 1 skipped'),
    Case('no program is left', {}, '{all} passed, 1 failed, 1 skipped', 'FAILED rt ci left no crates/gwb/out/gwb or', ()),
    Case('nothing is to be installed', {}, '{all} passed, 0 failed, 1 skipped', '.ci/needs is told: --list', words=['--no-install'])]
# Words with which the gate begins nothing: the status, and what it prints.
ENDS = {'--help': (0, '.ci/run [--no-install]'), '--no-such-word': (2, 'there is no --no-such-word'), 'word': (2, 'too many')}


def stub(path: Path, text: str) -> None:
    """A command that runs these lines of a shell."""
    path.parent.mkdir(parents=True, exist_ok=True)
    path.write_text(f'#!/bin/sh\n{text}\n')
    path.chmod(0o755)


def stubs(folder: Path, case: Case) -> None:
    """A tree like the project's, whose commands print what the case says. `rt ci` tells which libraries of an earlier run it finds."""
    shutil.copytree(TOP / '.ci', folder / '.ci')
    tests = [f'tests/{path.name}' for end in ('py', 'sh') for path in (TOP / 'tests').glob(f'*.{end}')]
    for name in [*tests, 'companions/tests/run.py']:
        stub(folder / name, f"cat <<'END'\n{case.prints.get(name, PASSED)}\nEND")
    stub(folder / '.ci' / 'needs', 'echo ".ci/needs is told: $*"')
    stub(folder / '.ci' / 'unused', f'echo "{PASSED}"')
    stub(folder / '.ci' / 'archive', 'mkdir -p crates/gwb_c/out && touch crates/gwb_c/out/libgwb_c.a')
    (folder / 'crates.txt').touch()
    made = ''.join(f'mkdir -p {os.path.dirname(name)}; cp .ci/needs {name}; ' for name in case.files)
    taken = 'mkdir -p crates/taken/out/rlib/taken.rlib; touch -d 2000-01-01 crates/taken/out/rlib/taken.rlib'
    stub(folder / 'bin' / 'rt', f'ls -d crates/*/out/rlib; {made}\n{taken}\necho "{PASSED}"')
    for name in ('built_by_ci/out/rlib/built_by_ci.rlib/format', 'built_by_hand/out/rlib/stamp'):
        path = folder / 'crates' / name
        path.parent.mkdir(parents=True)
        path.touch()


def gate(case: Case) -> str:
    """What is wrong with a run of the gate, or nothing."""
    with tempfile.TemporaryDirectory() as name:
        folder = Path(name)
        stubs(folder, case)
        done = run([str(folder / '.ci' / 'run'), *case.words], folder, PATH=f'{folder / "bin"}:{os.environ["PATH"]}')
        written = ''.join((folder / 'out' / name).read_text() for name in ('rt-ci.log', 'lanes.log')).splitlines()
        is_new = (folder / 'crates/taken/out/rlib/taken.rlib').stat().st_mtime > (folder / 'bin/rt').stat().st_mtime
    *lines, last = done.stdout.splitlines() or ['']
    count = sum(line.startswith('== ') for line in [*lines, *written]) - 2  # (.ci/needs and .ci/archive count nothing)
    numbers = {'all': count, 'others': count + (2 if 'compared' in str(case.prints) else 4), 'fewer': count - 1}
    why: List[str] = []
    if last != case.wanted.format(**numbers) or done.returncode != (' 0 failed' not in last):
        why.append(f'status {done.returncode}, last line {last!r}')
    if not any(line.startswith(case.said) for line in lines):
        why.append(f'no line {case.said!r}')
    if any(line.startswith('FAILED') for line in lines) != any(line.startswith('FAILED') for line in lines[-4:]):
        why.append('what failed is not told at the end')
    if [line for line in written if line.endswith('/out/rlib')] != ['crates/built_by_hand/out/rlib']:
        why.append('rt ci finds libraries of an earlier run, or those of other commands are gone')
    if not is_new:
        why.append('a library that rt ci took from an earlier run is older than the sources')
    return f'the gate where {case.name}: {"; ".join(why)}' if why else ''


# What a run of rt writes, in short, and what is told of it, without the time.
WRITTEN = """== lattice
fn lattice::point_in_range: proved
statements core: modules loaded=203 checked=0
./src/planes.rt:1:1: note: large solution
rt: lattice proved
rt: lattice: trying its must-fail edits (6)
rt: cyclic_list is kept: an earlier run on this machine proved the same files over the same libraries
rt: cyclic_list: 3 of its 3 must-fail edits were tried by an earlier run on this machine, and nothing that they stand on has changed
== boundary_model
fn boundary_model::mate: proved
./src/lib.rt:12:3: error[unproved]: it may overflow
rt: boundary_model NOT PROVED
rt: must-fail lattice/one.edit: refused, as it must be: ./src/points.rt:3:1: error
rt: must-fail lattice/two.edit: NOT TRIED: its check ended with status 2
what it said
rt: FAILED: boundary_model lattice/two.edit
6 passed, 2 failed"""
FAILED = """FAILED boundary_model NOT PROVED
FAILED must-fail lattice/two.edit: NOT TRIED: its check ended with status 2
FAILED boundary_model lattice/two.edit"""
TOLD = """sh SCRIPT: all that it writes is in LOG
1 of 3 crates proved: lattice, after 0:00
lattice: 6 edits begun, so far 6 of 2
2 of 3 crates proved: cyclic_list, kept from an earlier run
cyclic_list: 3 edits tried in an earlier run, so far 9 of 2
FAILED boundary_model NOT PROVED
    ./src/lib.rt:12:3: error[unproved]: it may overflow
FAILED must-fail lattice/two.edit: NOT TRIED: its check ended with status 2
    what it said
FAILED boundary_model lattice/two.edit
""" + FAILED + """
6 passed, 2 failed"""


def progress() -> Iterator[str]:
    """What .ci/progress tells of a run, and what it keeps; of a command that only fails it tells the status."""
    with tempfile.TemporaryDirectory() as name:
        folder = Path(name)
        shutil.copytree(TOP / '.ci', folder / '.ci')
        (folder / 'crates.txt').write_text('lattice:\ncyclic_list:\nboundary_model: cyclic_list lattice\n')
        for edit in ('one', 'two'):
            (folder / 'crates' / 'lattice' / 'must-fail').mkdir(parents=True, exist_ok=True)
            (folder / 'crates' / 'lattice' / 'must-fail' / f'{edit}.edit').touch()
        script, log = folder / 'script', folder / 'log'
        script.write_text(f"cat <<'END'\n{WRITTEN}\nEND\nexit 1\n")
        done = run([str(folder / '.ci' / 'progress'), str(log), 'sh', str(script)], folder)
        told = re.sub(r'(?m)^\[\d\d:\d\d, \d+:\d\d\] ', '', done.stdout).replace(str(script), 'SCRIPT').replace(str(log), 'LOG')
        yield '' if (done.returncode, told) == (1, f'{TOLD}\n') else f'.ci/progress: status {done.returncode}, told: {told}'
        yield '' if log.read_text() == f'{WRITTEN}\n' else '.ci/progress does not keep what is written'
        done = run([str(folder / '.ci' / 'progress'), str(log), 'false'], folder)
        yield '' if done.returncode == 1 and 'FAILED false: status 1' in done.stdout else f'.ci/progress false: {done.stdout}'


def begins_nothing(word: str, status: int, said: str) -> str:
    """What is wrong with the gate where it is given a word with which it begins nothing."""
    with tempfile.TemporaryDirectory() as name:
        folder = Path(name)
        stubs(folder, CASES[0])
        done = run([str(folder / '.ci' / 'run'), word], folder, PATH=f'{folder / "bin"}:{os.environ["PATH"]}')
    is_so = done.returncode == status and said in done.stdout and '==' not in done.stdout
    return '' if is_so else f'.ci/run {word}: status {done.returncode}: {done.stdout[-300:]}'


def findings() -> Iterator[str]:
    """For each comparison what is wrong, or nothing."""
    yield from missing()
    yield from helped()
    yield from progress()
    yield from (begins_nothing(word, *wanted) for word, wanted in ENDS.items())
    with tempfile.TemporaryDirectory() as folder:
        yield from unbuilt(folder)
        yield from without_tools(Path(folder))
    yield from map(gate, CASES)


if __name__ == '__main__':
    command_line(__doc__)
    sys.exit(told(findings(), [] if shutil.which('make') else [without('make', 'what make says where nothing is built')]))
