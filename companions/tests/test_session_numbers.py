"""The numbers that methods return are those of the listing, after random commands, undo, redo and lines of the language."""

import os
import unittest
from random import Random

from support import STEP, as_listed, library, opened
from test_playing import Chance
from test_session import call

from gwb import Complaint, InDraft, Workbench
from gwb.geometry.free_numbers import KINDS


def greatest_of(model):
    """The greatest number in use of each kind."""
    kinds = (model.solids, model.faces, model.loops, model.edges, model.vertices)
    return tuple(max(numbers, default=0) for numbers in kinds)


class Unnumbered:
    """A bench whose methods choose all numbers."""

    def __init__(self, bench):
        self.bench = bench

    def __getattr__(self, name):
        return lambda *given, **numbers: getattr(self.bench, name)(*given)


class Numbers(unittest.TestCase):
    """RANDOM_COMMANDS of the environment may name how many."""

    def test_random_commands(self):
        left, seed = int(os.environ.get('RANDOM_COMMANDS', 4000)), 0
        while left > 0:
            with Workbench(library(), step=STEP) as bench:
                left, seed = left - self.play(bench, seed, min(left, 80)), seed + 1

    def play(self, bench, seed, count):
        chance, random, before = Chance(seed), Random(seed), bench.listing()
        for _ in range(count):
            word, *words = chance.line(before).split()
            try:
                result = self.given(bench, random, chance, word, words)
            except (Complaint, InDraft):
                before = bench.listing()
                continue
            after = bench.listing()
            if result is not None:
                self.compare(word, result, before, after, seed)
            self.assertEqual(tuple(bench._kernel.lines.greatest(kind) for kind in KINDS), greatest_of(after), (seed, word))
            if random.random() < 0.2:
                self.assertEqual(as_listed(bench), after, (seed, word))
            before = after
        return count

    def given(self, bench, random, chance, word, words):
        """What a method returns; of a line, or of a draft of some commands, which is given up where one is refused, nothing."""
        way = random.randrange(8)
        if way == 0:
            bench.ask(' '.join([word, *words]))
        elif way == 1:
            with bench.draft():
                for _ in range(random.randrange(5)):
                    word, *words = chance.line(bench.listing()).split()
                    call(Unnumbered(bench), word, words)
        else:
            return call(Unnumbered(bench), word, words)
        return None

    def compare(self, name, result, before, after, seed):
        """The numbers returned are new ones, and all of the new ones of the kinds that the result names."""
        if name in ('mvfs', 'mev', 'mef'):
            self.assertEqual(self.new(before, after, result._fields), {field: {number} for field, number in result._asdict().items()})
        elif name in ('kemr', 'mekr', 'mfkrh'):
            kind = {'kemr': 'loop', 'mekr': 'edge', 'mfkrh': 'face'}[name]
            self.assertEqual(self.new(before, after, [kind]), {kind: {result}}, seed)
        elif name in ('lamina', 'block', 'sweep', 'split'):
            faces = {'lamina': lambda: result[1:3], 'block': lambda: (result.top, result.bottom, *result.sides),
                     'sweep': lambda: result.sides, 'split': lambda: result.faces}[name]()
            edges = result.rising + result.far if name == 'sweep' else result.edges
            self.assertEqual(self.new(before, after, ('face', 'edge', 'vertex')),
                             {'face': set(faces), 'edge': set(edges), 'vertex': set(result.vertices)}, (seed, name))

    @staticmethod
    def new(before, after, kinds):
        names = {'solid': 'solids', 'face': 'faces', 'loop': 'loops', 'edge': 'edges', 'vertex': 'vertices'}
        return {kind: set(getattr(after, names[kind])) - set(getattr(before, names[kind])) for kind in kinds}


class Steps(unittest.TestCase):
    """Undo and redo by groups and by commands."""

    def setUp(self):
        self.bench = opened(self)

    def test_a_group_is_one_step_of_commands(self):
        bench = self.bench
        block = bench.block((0, 0, 0), (9, 9, 9))
        held = bench.listing()
        with bench.group():
            bench.pocket(block.top, [(1, 1, 9), (4, 1, 9), (1, 4, 9)], 2)
            pocketed = bench.listing()
            bench.block((20, 0, 0), (9, 9, 9))
        made = bench.listing()
        bench.undo(command=True)
        self.assertEqual(bench.listing(), pocketed)
        bench.redo()
        self.assertEqual(bench.listing(), made)
        bench.undo(command=True)
        bench.undo()
        self.assertEqual(bench.listing(), held)
