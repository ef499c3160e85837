"""Every example through every companion: each output has the sum that is stored.

The examples have faces with rings and a hole, several solids, a wire and a lamina, which most forms refuse, a model without a solid, and refusals.

    python3 companions/tests/test_examples.py --store

stores what the companions write now.
"""

import sys
import unittest
from hashlib import sha256
from pathlib import Path
from typing import Dict, List

from support import OUTPUTS, REPOSITORY, examples, run

# SHA-256 of the outputs, by their names.
SUMS = OUTPUTS / 'sums'
MOST_TOLD = 1000

# What is stored for each example, by the end of the file's name: a companion and its words before the file.
LISTING_RUNS: Dict[str, List[str]] = {
    'svg': ['svg'],
    'names.svg': ['svg', '--names'],
    'step': ['step'],
    'off': ['mesh'],
    'obj': ['mesh', '--form', 'obj'],
    'stl': ['mesh', '--form', 'stl'],
    'check': ['check'],
}
SCRIPT_RUNS: Dict[str, List[str]] = {
    'explain': ['explain'],
    'annotated': ['explain', '--annotate'],
}


def outcomes(script: Path) -> Dict[str, str]:
    """What each run gives for the example: its output, and its error and status where there are any."""
    replies = str(script.with_suffix('.expected'))
    runs = {end: [*words, replies] for end, words in LISTING_RUNS.items()}
    runs.update({end: [*words, str(script), replies] for end, words in SCRIPT_RUNS.items()})
    return {end: _told(*words) for end, words in runs.items()}


def _told(companion: str, *words: str) -> str:
    outcome = run(companion, *words)
    told = outcome.out.replace(str(REPOSITORY) + '/', '')
    return told if outcome.status == 0 else f'{told}{outcome.err}status {outcome.status}\n'


def sums() -> Dict[str, str]:
    """The sums that are stored."""
    return dict(line.split() for line in SUMS.read_text().splitlines())


def sum_of(told: str) -> str:
    """The sum of an output."""
    return sha256(told.encode()).hexdigest()


class Examples(unittest.TestCase):
    """The outputs of examples."""

    def test_every_example_through_every_companion(self):
        known, compared = sums(), 0
        for script in examples():
            for end, told in outcomes(script).items():
                with self.subTest(f'{script.stem}.{end}'):
                    self.assertEqual(sum_of(told), known[f'{script.stem}.{end}'], f'it is now:\n{told[:MOST_TOLD]}')
                    compared += 1
        self.assertEqual(compared, len(examples()) * len((*LISTING_RUNS, *SCRIPT_RUNS)))

    def test_nothing_else_is_stored(self):
        self.assertEqual({path.name for path in OUTPUTS.iterdir()}, {SUMS.name, 'MANIFEST.md', 'files.tar.xz'})
        self.assertEqual(set(sums()), {f'{script.stem}.{end}' for script in examples() for end in (*LISTING_RUNS, *SCRIPT_RUNS)})


def store() -> None:
    """Stores the sums of what the companions write now, in place of what was stored."""
    SUMS.write_text(''.join(f'{script.stem}.{end} {sum_of(told)}\n' for script in examples() for end, told in outcomes(script).items()))


if __name__ == '__main__':
    if sys.argv[1:] == ['--store']:
        store()
    else:
        unittest.main()
