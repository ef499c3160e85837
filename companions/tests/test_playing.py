"""What commands change, told as they are played: random ones, each compared with a listing. test_session_playing.py does it by the library."""

import json
import os
import random
import unittest
from collections import Counter
from itertools import permutations
from unittest import mock

from support import program

from gwb.drawing.page_rows import EMPTY, Changes, rows_of
from gwb.errors import ProgramMissing
from gwb.programs import playing
from gwb.programs.pipe import Pipe
from gwb.programs.playing import ProgramPlayer, played
from gwb.protocol.listing import model_of

WORDS = ('mvfs', 'kvfs', 'mev', 'kev', 'mef', 'kef', 'kemr', 'mekr', 'kfmrh', 'mfkrh', 'ringmv', 'lamina', 'block', 'sweep', 'glue', 'split',
         'undo', 'redo')
RARE = ('kemr', 'ringmv', 'glue', 'split', 'split', 'redo')


class Chance:
    """Random commands about a model, many of which are accepted."""

    def __init__(self, seed):
        self._random, self._held = random.Random(seed), EMPTY

    def _one(self, numbers):
        return self._random.choice(sorted(numbers) or [1])

    def _half(self):
        return self._random.choice((1, -1)) * self._one(self._held.edges)

    def _corner(self):
        lone = [number for number, loop in self._held.loops.items() if loop.is_lone]
        return f'@{self._one(lone)}' if lone and self._random.random() < .5 else f'{self._half():+d}'

    def _beside(self, half):
        """Half-edges that start where it does, or stand in its loop."""
        ends = {e: ends for e, ends in self._held.edges.items()}
        start = (lambda h: ends[h][0] if h > 0 else ends[-h][1])
        same = [h for e in ends for h in (e, -e) if start(h) == start(half)]
        loop = next((loop.halves for loop in self._held.loops.values() if half in loop.halves), (half,))
        return f'{self._random.choice(same or [half]):+d}', f'{self._random.choice(loop):+d}'

    def _new(self, rows):
        return max(rows, default=0) + self._random.randint(1, 3)

    def _point(self):
        return ' '.join(str(self._random.randint(-4, 4)) for _ in range(3))

    def _faces_to_glue(self):
        """Two faces of different solids at the same points, where there are such."""
        at = {}
        for face in self._held.faces:
            at.setdefault(frozenset(self._held.face_points(face)), []).append(face)
        solid_of = {face: row.solid for face, row in self._held.faces.items()}
        pairs = [pair for faces in at.values() for pair in permutations(faces, 2) if solid_of[pair[0]] != solid_of[pair[1]]]
        return '{} {}'.format(*self._one(pairs)) if pairs else '1 2'

    def line(self, held):
        """A command."""
        self._held, new = held, self._new
        solids, word, half = {face.solid for face in held.faces.values()}, self._random.choice(WORDS + RARE), self._half()
        around, along = self._beside(half) if held.edges else ('+1', '+1')
        face, loop, edge, vertex, solid = new(held.faces), new(held.loops), new(held.edges), new(held.vertices), new(solids)
        corner = self._corner()
        rings = [ring for row in held.faces.values() for ring in row.rings]
        ring = self._one(rings)
        lone = held.loops[ring].is_lone if rings else False
        inside = f'@{ring}' if lone else f'{self._random.choice(held.loops[ring].halves):+d}' if rings else '+1'
        owner = next((row for row in held.faces.values() if ring in row.rings), None)
        outer = held.loops[owner.outer] if owner else None
        outside = corner if outer is None else f'@{owner.outer}' if outer.is_lone else f'{self._random.choice(outer.halves):+d}'
        given = {
            'mvfs': f'{solid} {face} {loop} {vertex} {self._point()}', 'kvfs': self._one(solids),
            'mev': f'{self._random.choice((corner, f"{half:+d}"))} {{}} {edge} {vertex} {self._point()}', 'kev': f'{half:+d}',
            'mef': f'{half:+d} {along} {edge} {face} {loop}', 'kef': f'{half:+d}', 'kemr': f'{half:+d} {loop}',
            'mekr': f'{outside} {inside} {edge}', 'kfmrh': f'{self._one(held.faces)} {self._one(held.faces)}', 'mfkrh': f'{ring} {face}',
            'ringmv': f'{ring} {self._one(held.faces)} {self._random.choice(("in", "out"))}',
            'lamina': f'{solid} 0 0 0 3 0 0 0 {self._random.randint(1, 5)} 0', 'block': f'{solid} {self._point()} 2 2 2',
            'sweep': f'{self._one(held.faces)} {self._point()}', 'glue': self._faces_to_glue(),
            'split': f'{self._one(solids)} 1 0 0 {self._random.randint(-4, 4)} {solid}', 'undo': '', 'redo': ''}[word]
        if word == 'mev':
            first = str(given).split()[0]
            given = str(given).format(around if first == f'{half:+d}' and self._random.random() < .6 else first)
        return f'{word} {given}'.strip()


class AtRandom:
    """The model that follows from what is told of commands is the one held."""

    def tried(self, seed, count):
        """Gives random commands; how many of each word were accepted."""
        player, chance, held, accepted = self.player(), Chance(seed), EMPTY, Counter()
        changes, shown = Changes(), json.loads(''.join(rows_of(held)))
        for _ in range(count):
            line = chance.line(held)
            reply, before, after = player.give(line)
            for kind, changed in json.loads(changes.between(before, after)).items():
                shown[kind] = {number: row for number, row in {**shown[kind], **changed}.items() if row is not None}
            held = model_of(player.ask('list'))
            self.assertEqual(shown, json.loads(''.join(rows_of(held))), f'{seed}: {line}')
            self.assertEqual(player.model(), held, f'{seed}: {line}')
            accepted[line.split()[0]] += reply.word == 'ok'
        return accepted

    def test_random_commands(self):
        accepted = sum((self.tried(seed, 250) for seed in range(20)), Counter())
        self.assertGreater(sum(accepted.values()), 1_000)
        self.assertEqual([word for word in WORDS if accepted[word] < 5], [], accepted)


class ByProgram(AtRandom, unittest.TestCase):
    """By the program."""

    def player(self):
        """The program."""
        player = ProgramPlayer(program())
        self.addCleanup(player.close)
        return player

    def listings(self, named):
        """How many listings are read for a script of two accepted commands, where the environment variable GWB names this."""
        with mock.patch.dict(os.environ, GWB=named), mock.patch.object(Pipe, 'model', autospec=True, side_effect=Pipe.model) as read:
            steps = played(b'block 1 0 0 0 2 2 2\nblock 1 0 0 0 2 2 2\nvolume 1\nundo\n').steps
        self.assertEqual([step.is_complaint for step in steps], [False, True, False, False])
        return read.call_count

    def test_the_program_is_run_where_it_is_named_or_there_is_no_library(self):
        path = program()
        self.assertEqual(self.listings(path), 2)
        with mock.patch.object(playing, 'find_path', side_effect=ProgramMissing), mock.patch.object(playing, 'find_program', return_value=path):
            self.assertEqual(self.listings(''), 2)

    def test_a_library_that_is_named_and_not_there(self):
        with self.assertRaises(ProgramMissing):
            self.listings('/nowhere/libgwb.so')
