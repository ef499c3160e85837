"""What a split makes, as the session follows it: numbers, loops, caps and rings are those that are listed."""

import os
import unittest
from collections import Counter
from random import Random

from support import STEP, as_listed, library

from gwb import Refused, Workbench

WAYS = [(1, 0, 0), (0, 1, 0), (0, 0, 1), (1, 1, 0), (1, -1, 0), (1, 0, 1), (0, 1, 1), (1, 1, 1), (2, 1, 0)]


def comb(random):
    """The outline of a comb of one to four teeth, turned one way or another."""
    teeth = random.randint(1, 4)
    levels = [random.choice((4, 6, 8) if place % 2 == 0 else (2, 4)) for place in range(2 * teeth + 1)]
    upper = [(2 * place + step, level) for place, level in enumerate(levels) for step in (0, 2)]
    points = list(dict.fromkeys([(0, 0), (4 * teeth + 2, 0), *reversed(upper)]))
    if random.random() < .5:
        points = [(y, x) for x, y in points]
    return [(x, y, 0) for x, y in points]


def straddling(model, plane):
    """How many faces have corners on both sides of a plane."""
    a, b, c, d = plane
    heights = [[a * x + b * y + c * z + d for x, y, z in model.face_points(face)] for face in model.faces]
    return sum(min(found) < 0 < max(found) for found in heights)


class Followed(unittest.TestCase):
    """RANDOM_SPLITS of the environment may name how many parts are split."""

    def test_random_splits(self):
        told = Counter()
        for seed in range(int(os.environ.get('RANDOM_SPLITS', 40))):
            with self.subTest(seed=seed), Workbench(library(), step=STEP) as bench:
                self.split_all(bench, Random(seed), told)
        for name in ('ok', 'rings', 'TouchedFace', 'CutOften', 'several pairs'):
            self.assertGreater(told[name], 0, name)

    def split_all(self, bench, random, told):
        """Some holes and pockets in a comb, and twelve splits of what there is then."""
        made = bench.profile(comb(random), along=(0, 0, random.choice((2, 4))))
        for face in (made.far, made.base, *made.sides):
            x, y, z = min(bench.face(face).points)
            try:
                square = [(x + 1, y + 1, z), (x + 2, y + 1, z), (x + 2, y + 2, z), (x + 1, y + 2, z)]
                bench.hole(face, square) if random.random() < .5 else bench.pocket(face, square, 1)
            except Refused:
                pass
        for _ in range(12):
            solid, way, sign = random.choice(bench.solids()), random.choice(WAYS), random.choice((1, -1))
            self.split(bench, solid.number, (*(sign * part for part in way), random.randint(-10, 10)), told)

    def split(self, bench, solid, plane, told):
        """One split, as a method or as a line, and its undo and redo."""
        before, in_steps = bench.listing(), (*plane[:3], int(plane[3] / STEP))
        try:
            made = bench.split(solid, plane)
        except Refused as refused:
            told[refused.name] += 1
            return
        after = bench.listing()
        self.assertEqual(as_listed(bench), after)
        for found, kind in ((made.faces, 'faces'), (made.edges, 'edges'), (made.vertices, 'vertices')):
            self.assertEqual(found, tuple(sorted(set(getattr(after, kind)) - set(getattr(before, kind)))))
        self.assertEqual({after.faces[face].solid for face in made.lower_caps}, {solid})
        self.assertEqual({after.faces[face].solid for face in made.upper_caps}, {made.solid})
        bench.undo()
        self.assertEqual(as_listed(bench), before)
        self.assertEqual(bench.ask('split {} {} {} {} {} {}'.format(solid, *in_steps, made.solid)).lines, ('ok',))
        self.assertEqual((as_listed(bench), bench.listing()), (after, after))
        self.assertEqual(bench.block((0, 0, 90), (1, 1, 1)).top, max(after.faces) + 1)
        bench.undo()
        told['ok'] += 1
        told['rings'] += any(face.rings for face in after.faces.values())
        told['several pairs'] += len(made.faces) - len(made.lower_caps) - len(made.upper_caps) > straddling(before.only(solid), in_steps)
