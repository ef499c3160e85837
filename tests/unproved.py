#!/usr/bin/env python3
"""What `make try` builds without a proof says so, and answers as the proved program does.

    tests/unproved.py [PROGRAM]        PROGRAM is crates/gwb/out/gwb where none is given

Builds it, and compares replies and statuses on the stored scripts and on 20,000 random lines, and what the example in Python prints over the
unproved library. Needs `rt`, `make` and `cc`. The last line counts.
"""
import subprocess
import sys
from pathlib import Path
from typing import Iterator, Sequence, Tuple

from counts import GWB, TOP, command_line, needs, there, told

UNPROVED = TOP / 'out' / 'gwb-unproved'
LIBRARY = TOP / 'out' / 'unproved' / 'libgwb.so'
EXAMPLES = TOP / 'bindings' / 'examples'
SEEDS = range(1, 21)


def run(words: Sequence[object], script: bytes = b'') -> Tuple[int, bytes]:
    """The status of a command, and what it writes."""
    done = subprocess.run(list(map(str, words)), input=script, stdout=subprocess.PIPE, stderr=subprocess.STDOUT, cwd=TOP, check=False, timeout=900)
    return done.returncode, done.stdout


def scripts() -> Iterator[Tuple[str, bytes]]:
    """The stored scripts and random ones, by their names."""
    for path in sorted([*(TOP / 'tests' / 'scripts').glob('*.gwb'), *(TOP / 'examples').glob('*.gwb')]):
        yield path.name, path.read_bytes()
    for seed in SEEDS:
        yield f'1,000 random lines of seed {seed}', run([TOP / 'tests' / 'random_lines.py', 1000, seed])[1]


def built() -> str:
    """Builds, and says what is wrong, or nothing."""
    status, wrote = run(['make', '-s', 'try'])
    return '' if status == 0 else f'make try: status {status}: {wrote[-600:].decode(errors="replace")}'


def named() -> Iterator[str]:
    """The program says that it is unproved, and of which version it is."""
    version = (TOP / 'VERSION').read_text().strip()
    status, wrote = run([UNPROVED, '--version'])
    yield '' if (status, wrote) == (0, f'gwb {version}, unproved\n'.encode()) else f'--version: status {status}, {wrote!r}'
    first = run([UNPROVED, '--help'])[1].split(b'\n')[0]
    yield '' if first.startswith(b'UNPROVED. The Geometric WorkBench') else f'--help begins {first!r}'


def alike(program: Path) -> Iterator[str]:
    """Replies and statuses are those of the proved program."""
    for name, script in scripts():
        for words in ((), ('--stop',)):
            wanted, found = run([program, *words], script), run([UNPROVED, *words], script)
            yield '' if found == wanted else f'{name} {" ".join(words)}: status {found[0]}, not {wanted[0]}, or other replies'


def library() -> Iterator[str]:
    """The example in Python prints over the unproved library what it prints over the proved one."""
    wanted = (0, (EXAMPLES / 'block_python.expected').read_bytes())
    found = run([EXAMPLES / 'block.py', LIBRARY])
    yield '' if found == wanted else f'the example in Python: status {found[0]}: {found[1][-300:]!r}'


def findings(program: Path) -> Iterator[str]:
    """For each comparison what is wrong, or nothing."""
    wrong = built()
    yield wrong
    if not wrong:
        yield from named()
        yield from alike(program)
        yield from library()


def main() -> int:
    program = there(command_line(__doc__, program=GWB).program)
    needs('rt', 'make', 'cc')
    return told(findings(program))


if __name__ == '__main__':
    sys.exit(main())
