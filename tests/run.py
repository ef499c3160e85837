#!/usr/bin/env python3
"""Runs all tests that need no proof on a built program, and on the library's archive where one is given.

    tests/run.py [PROGRAM [ARCHIVE]]      PROGRAM is crates/gwb/out/gwb where none is given

A program or archive that is named and isn't there is a failure. A test whose tools aren't there is skipped, and so is what a test leaves out for
want of one; each is named. The calls that no script reaches are tried where `rt ci` has left their program. The last line counts what passed, failed
and was skipped.
"""
import re
import shutil
import subprocess
import sys
from dataclasses import dataclass
from pathlib import Path
from typing import Iterator, List, Tuple

from counts import GWB, TOP, command_line

DIRECT_CALLS = TOP / 'crates' / 'direct_calls' / 'out' / 'direct_calls'
_LAST = re.compile(r'(\d+) (passed|compared), (\d+) (?:failed|wrong)(?:, (\d+) skipped)?$')
_LEFT_OUT = re.compile(r'(?:skipped|not tried): ')


@dataclass(frozen=True)
class Trial:
    """A test: its words, from the top of the repository on, and the tools and built programs without which it can't begin."""

    words: Tuple[str, ...]
    tools: Tuple[str, ...] = ()
    built: Tuple[Path, ...] = ()

    def __str__(self) -> str:
        return ' '.join(self.words)


@dataclass(frozen=True)
class Outcome:
    """How many comparisons passed, failed and were left out, and what says so of these."""

    passed: int
    failed: int
    skipped: int = 0
    named: Tuple[str, ...] = ()


def trials(program: str, archive: str) -> Iterator[Trial]:
    """The tests, those of documents first."""
    for name in ('gate', 'quotes', 'sentences', 'statement', 'versions', 'refusals', 'vocabulary', 'pages', 'words', 'unused', 'conditionals'):
        yield Trial((f'tests/{name}.py',))
    yield Trial(('tests/handed_on.py',), ('cc',))
    yield Trial(('.ci/unused',))
    yield Trial(('tests/scripts.py', program))
    yield Trial(('tests/laws.py', program))
    yield Trial(('tests/program.sh', program))
    yield Trial(('tests/refused_growths.py', program), ('cc',))
    yield Trial(('tests/documents.py', program))
    yield Trial(('companions/tests/run.py', program))
    yield Trial(('tests/install.py', program), ('make',))
    yield Trial(('tests/site.py',))
    yield Trial(('tests/direct_calls.py', str(DIRECT_CALLS), program), ('cc',), (DIRECT_CALLS,))
    if archive:
        yield Trial(('tests/library.sh', archive, program), ('cc', 'c++', 'make'))
        yield Trial(('tests/install.py', program, archive), ('cc', 'make'))
        yield Trial(('tests/dist.py', program, archive), ('cc', 'c++', 'make'))


def outcome_of(trial: Trial) -> Outcome:
    """Runs a test, or says what it lacks."""
    missing = [tool for tool in trial.tools if shutil.which(tool) is None] + [str(path) for path in trial.built if not path.is_file()]
    if missing:
        return Outcome(0, 0, 1, (f'{trial}: there is no {", ".join(missing)}',))
    try:
        done = subprocess.run([TOP / trial.words[0], *trial.words[1:]], cwd=TOP, stdout=subprocess.PIPE, stderr=subprocess.STDOUT, check=False)
    except OSError as error:
        print(error)
        return Outcome(0, 1)
    return counted(trial, done.returncode, done.stdout.decode(errors='replace').splitlines())


def counted(trial: Trial, status: int, lines: List[str]) -> Outcome:
    """What a test's last line says. One that ends otherwise than that line says has failed."""
    last = _LAST.match(lines[-1]) if lines else None
    if last is None or (int(last.group(1)) == 0 or status != 0) and int(last.group(3)) == 0:
        print(*lines[-12:], f'{trial}: it ended with status {status}', sep='\n')
        return Outcome(0, 1)
    failed = int(last.group(3))
    passed = int(last.group(1)) - (failed if last.group(2) == 'compared' else 0)
    if failed:
        print(*lines, sep='\n')
    named = left_out(trial, lines)
    skipped = max(int(last.group(4) or 0), len(named))
    more = (f'{trial}: {skipped - len(named)} more, which it names as whole files or not at all',) if skipped > len(named) else ()
    return Outcome(passed, failed, skipped, (*named, *more))


def left_out(trial: Trial, lines: List[str]) -> Tuple[str, ...]:
    """What a test says that it left out."""
    return tuple(f'{trial}: {_LEFT_OUT.sub("", line)}' for line in lines if _LEFT_OUT.match(line))


def absent(*files: str) -> List[str]:
    """What is wrong with the files that are to be tried: those that aren't there."""
    return [f'{file}: there is no such file' for file in files if file and not Path(file).is_file()]


def main() -> int:
    given = command_line(__doc__, program=GWB, archive='')
    program, archive = (str(Path(word).resolve()) if word else '' for word in (given.program, given.archive))
    missing = absent(program, archive)
    if missing:
        print(*missing, f'0 passed, {len(missing)} failed, 0 skipped', sep='\n')
        return 1
    found: List[Outcome] = []
    all_trials = list(trials(program, archive))
    for number, trial in enumerate(all_trials, 1):
        print(f'{number} of {len(all_trials)}: {trial}', flush=True)
        outcome = outcome_of(trial)
        print(f'{trial}: {outcome.passed} passed, {outcome.failed} failed, {outcome.skipped} skipped', flush=True)
        found.append(outcome)
    told = [f'skipped: {name}' for outcome in found for name in outcome.named]
    passed, failed, skipped = (sum(numbers) for numbers in zip(*((it.passed, it.failed, it.skipped) for it in found)))
    print(*told, f'{passed} passed, {failed} failed, {skipped} skipped', sep='\n')
    return 1 if failed else 0


if __name__ == '__main__':
    sys.exit(main())
