#!/usr/bin/env python3
"""Refuses an allocation after a large lamina to the calls of crates/direct_calls, and looks at what they answer.

    tests/direct_calls.py [PROGRAM [GWB]]        PROGRAM is crates/direct_calls/out/direct_calls and GWB crates/gwb/out/gwb where none is given

Needs a C compiler, `cc`. An operator, and a draft of one, copy no model: each is accepted though the twentieth allocation after the lamina
is refused. A copy of the arena asks for more, and answers `memory` then. The steps of the glue of two blocks are refused each of their
allocations in turn: a step is taken when it is given again, and a draft that is abandoned leaves the two blocks.
"""
import subprocess
import sys
import tempfile

import refused_growths
from counts import GWB, TOP, command_line, needs, there, told

WANTED = {'act': 'ok', 'draft': 'ok', 'copy': 'memory'}
BLOCKS = 'block 1 0 0 0 4 4 4;block 2 0 0 4 4 4 4'
GROWTHS = 6  # that the fourteen steps of their glue ask for
NO_WORD = 'spliced at'


class Program(refused_growths.Program):
    """The program, whose one word says which call it makes."""

    def told(self, word, refused=0):
        """What it prints with an allocation refused, or none."""
        return self.start([word], b'', refused).stdout.decode().strip()

    def refused_in_turn(self, word):
        """What it prints with all memory, and then with each allocation refused."""
        whole = self.told(word)
        return whole, [self.told(word, n) for n in range(1, self.allocations() + 1)]


def findings(program):
    """One text for each call: what is wrong with its answers, or nothing."""
    program.told('lamina')
    before = program.allocations()
    for word, wanted in WANTED.items():
        whole, found = program.told(word), program.told(word, before + refused_growths.COPY)
        yield '' if (whole, found) == ('ok', wanted) else '%s: %s with all memory, else %s, not %s' % (word, whole, found, wanted)


def steps(program, word, begun):
    """One text for each allocation of the steps of a glue: what is wrong where it is refused, or nothing. `begun` is the listing of two blocks."""
    whole, found = program.refused_in_turn(word)
    wanted = begun if word == 'abandoned' else whole
    if (whole == begun) == (word == 'committed'):
        yield '%s: another listing with all memory: %s' % (word, whole)
    for n, told in enumerate(found, 1):
        is_early = told in ('no blocks', 'no draft') or told.startswith(NO_WORD)
        yield '' if is_early or told in (whole, 'memory\n' + wanted) else '%s, allocation %d: %s' % (word, n, told)
    yield '' if sum(told.startswith('memory') for told in found) >= GROWTHS else '%s: too few steps were refused' % word


def listed(path):
    """The listing of two blocks, as the program gwb tells it."""
    script = ''.join(command + '\n' for command in (BLOCKS + ';list').split(';'))
    return '\n'.join(subprocess.run([path], input=script, capture_output=True, check=True, text=True).stdout.splitlines()[2:])


def main():
    given = command_line(__doc__, program=TOP / 'crates' / 'direct_calls' / 'out' / 'direct_calls', gwb=GWB)
    path, gwb = there(given.program), there(given.gwb)
    needs('cc')
    begun = listed(gwb)
    with tempfile.TemporaryDirectory() as folder:
        program = Program(path, folder)
        found = [*findings(program), *steps(program, 'committed', begun), *steps(program, 'abandoned', begun)]
    return told(found)


if __name__ == '__main__':
    sys.exit(main())
