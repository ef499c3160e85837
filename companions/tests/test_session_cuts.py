"""Cuts that split refuses, made all the same, and solids that touch made one: what Python says of them, what is undone, and oblique cuts at random."""

import os
import tempfile
import unittest
import warnings
from collections import Counter
from contextlib import suppress
from fractions import Fraction
from pathlib import Path
from random import Random

from support import folder_of, library, opened, step_of

from gwb import Refused, Workbench
from gwb.checks.check import check
from gwb.geometry.free_numbers import begun_at
from gwb.geometry.measures import six_volume
from gwb.geometry.outlines import Impossible

U_SHAPE = [(0, 0, 0), (12, 0, 0), (12, 12, 0), (8, 12, 0), (8, 4, 0), (4, 4, 0), (4, 12, 0), (0, 12, 0)]


def volume_of(bench, solid):
    """The volume of a solid, by its listing."""
    model = bench.listing()
    return Fraction(six_volume(model, model.faces_of(solid)), 6) * bench.step ** 3


def faces_of(model):
    """The faces of a model by the points of their loops."""
    def cycle(loop):
        points = tuple(model.loop_points(loop))
        return begun_at(points, min(points))
    return Counter((cycle(face.outer), frozenset(map(cycle, face.rings))) for face in model.faces.values())


class Stepwise(unittest.TestCase):
    """A bench, and what each step on it leaves."""

    def setUp(self):
        self.bench = opened(self, step_of(self, 'test_one_that_split_takes'))

    def one_step(self, act):
        """Does it, takes it back and does it again: what it returned. Nothing is wrong with what it makes."""
        before, script = self.bench.listing(), self.bench.script()
        made = act()
        after = self.bench.listing()
        self.assertEqual(check(after).findings, [])
        self.bench.undo()
        self.assertEqual((self.bench.listing(), self.bench.script()), (before, script))
        self.bench.redo()
        self.assertEqual(self.bench.listing(), after)
        return made

    def refuse(self, name, act):
        before, script = self.bench.listing(), self.bench.script()
        with self.assertRaises(Refused) as caught:
            act()
        self.assertEqual(caught.exception.name, name)
        self.assertEqual((self.bench.listing(), self.bench.script()), (before, script))
        return caught.exception

    def volume(self, solid):
        """The volume of a solid."""
        return volume_of(self.bench, solid)

    def surface(self, heights):
        """A solid of triangles over 3 by 3 points, so high above the plane z = 0."""
        rows = [(x, y) for x in range(3) for y in range(3)]
        points = [(6 * x, 6 * y, z) for level in (1, 0) for x, y in rows for z in [level * heights[x][y]]]
        ring = [rows.index(place) + 1 for place in ((0, 0), (1, 0), (2, 0), (2, 1), (2, 2), (1, 2), (0, 2), (0, 1))]
        faces = [face for here, there in zip(ring, ring[1:] + ring[:1])
                 for face in ((5, here, there), (14, there + 9, here + 9), (here + 9, there + 9, there), (here + 9, there, here))]
        with tempfile.TemporaryDirectory() as folder:
            path = Path(folder) / 'surface.obj'
            path.write_text(''.join('v {} {} {}\n'.format(*point) for point in points) + ''.join('f {} {} {}\n'.format(*face) for face in faces))
            return self.bench.import_file(path).one()


class Cuts(Stepwise):
    """One cut each."""

    def test_one_that_split_takes(self):
        block = self.bench.block((0, 0, 0), (4, 4, 4))
        made = self.one_step(lambda: self.bench.cut(block.solid, (1, 0, 0, -1), above=9))
        self.assertEqual(self.bench.script().splitlines()[1:], ['split 1 1 0 0 -1 9'])
        self.assertEqual((made.below, made.above), (1, 9))
        self.assertEqual((self.volume(1), self.volume(9)), (16, 48))
        self.assertEqual([self.bench.face(cap).solid.number for cap in (*made.lower_caps, *made.upper_caps)], [1, 9])

    def test_what_is_kept(self):
        block = self.bench.block((0, 0, 0), (4, 4, 4)).solid
        made = self.one_step(lambda: self.bench.cut(block, (1, 0, 0, -1), keep='below'))
        self.assertEqual((made.below, made.above, made.upper_caps, self.volume(block)), (block, None, (), 16))
        self.bench.undo()
        made = self.one_step(lambda: self.bench.cut(block, (1, 0, 0, -1), keep='above'))
        self.assertEqual((made.below, made.above, made.lower_caps, self.volume(block)), (None, block, (), 48))
        self.bench.undo()
        self.assertRaisesRegex(ValueError, 'above', self.bench.cut, block, (1, 0, 0, -1), keep='below', above=2)
        caps = self.one_step(lambda: self.bench.trim(block, (1, 1, 1, -6)))
        self.assertEqual((self.bench.listing().solids, len(caps), self.bench.plane(caps[0]).flat), ((block,), 1, True))


class Unions(Stepwise):
    """Solids made one."""

    def blocks(self, *boxes):
        return [self.bench.block(point, sizes).solid for point, sizes in boxes]

    def test_a_factor_that_makes_corners_whole(self):
        wedge = self.bench.profile([(0, 0, 0), (12, 0, 0), (0, 0, 1)], along=(0, 5, 0)).solid
        block = self.bench.block((8, -1, -1), (12, 8, 8)).solid
        factor = self.refuse('OffLattice', lambda: self.bench.subtract(wedge, [block])).value
        self.assertEqual(factor, 3)
        step, cut = self.bench.step, Fraction(5 * 4, 2) * Fraction(4, 12)
        before = self.bench.volume(wedge)
        self.one_step(lambda: self.bench.subtract(wedge, [block], refine=True))
        self.assertEqual((self.bench.step, before - self.bench.volume(wedge)), (step / 3, cut))

    def test_a_step_that_can_not_be_so_fine(self):
        far = 10 ** 9 * self.bench.step // 1
        wedge = self.bench.profile([(far - 12, 0, 0), (far, 0, 0), (far - 12, 0, 1)], along=(0, 5, 0)).solid
        block = self.bench.block((far - 4, -1, -1), (4, 8, 8)).solid
        refused = self.refuse('PointRange', lambda: self.bench.subtract(wedge, [block], refine=True))
        self.assertRegex(str(refused), '^in a step 3 times finer all points of what is made are multiples of it, but')
        with self.assertRaisesRegex(Impossible, r'; in a step 3 times finer they are multiples of it, as refine=True makes it$'):
            self.bench.union([wedge, block])

    def test_components_become_solids(self):
        left, _, right = self.blocks(((0, 0, 0), (4, 4, 4)), ((20, 0, 0), (4, 4, 4)), ((9, 0, 0), (2, 2, 2)))
        self.bench.union([left, right])
        self.bench.label(self.bench.solid(left), name='both')
        parts = self.one_step(lambda: self.bench.separate(left))
        self.assertEqual(([self.volume(part) for part in parts], parts[0], len(parts)), ([64, 8], left, 2))
        self.assertEqual({self.bench.labels['solid', part].name for part in parts}, {'both'})


class RandomCuts(unittest.TestCase):
    """RANDOM_CUTS of the environment may name how many parts are cut."""

    def test_oblique_cuts_are_taken_back_by_unions(self):
        told = Counter()
        for seed in range(int(os.environ.get('RANDOM_CUTS', 12))):
            with self.subTest(seed=seed), Workbench(library(), step=step_of(self, 'test_oblique_cuts_are_taken_back_by_unions')) as bench:
                self.try_part(bench, Random(seed), told)
        self.assertGreater(told['made anew'], 0)
        self.assertGreater(told['split'], 0)

    def try_part(self, bench, random, told):
        """Six cuts of a block less some others."""
        bench.block((0, 0, 0), [60 * random.randint(2, 4) for _ in range(3)])
        for _ in range(4):
            with suppress(Refused), bench.draft():
                bench.subtract(1, [bench.block(*([60 * random.randint(*ends) for _ in range(3)] for ends in ((-1, 3), (1, 2))))])
        for _ in range(6):
            across = random.choice([(1, 0, 0), (0, 1, -1), (1, 1, 0), (1, -1, 1), (1, 2, 0), (2, -1, 1), (-2, 1, 2)])
            point = [part + random.choice((0, 0, 30, -30, 60)) for part in random.choice(bench.vertices()).point]
            self.try_cut(bench, (*across, -sum(one * two for one, two in zip(across, point))), told)

    def touches_itself(self, solid):
        """Whether gwb-check says so of a solid taken alone."""
        return any(finding.kind == 'touching' for finding in check(solid).findings)

    def try_cut(self, bench, plane, told):
        """One cut, and the union of both parts, whose faces are those that it had."""
        before, volume = bench.listing(), volume_of(bench, 1)
        try:
            made = bench.cut(1, plane)
        except Refused as refused:
            told[refused.name] += 1
            self.assertIn(refused.name, ('PlaneMisses', 'NotLattice', 'Meets'))
            self.assertEqual(bench.listing(), before)
            return
        self.assertFalse(any(self.touches_itself(bench.listing().only(part)) for part in (made.below, made.above)))
        is_split = bench.script().splitlines()[-1].startswith('split')
        told['split' if is_split else 'made anew'] += 1
        self.assertEqual(volume_of(bench, made.below) + volume_of(bench, made.above), volume)
        findings = check(bench.listing()).findings
        self.assertEqual({finding.kind for finding in findings} - {'touching'}, set())
        for cap, way in [*((cap, 1) for cap in made.lower_caps), *((cap, -1) for cap in made.upper_caps)]:
            self.assertGreater(way * sum(one * two for one, two in zip(bench.face(cap).normal, plane)), 0)
        bench.union([made.below, made.above])
        self.assertEqual(faces_of(bench.listing()), faces_of(before))
        bench.undo()
        bench.undo()
        self.assertEqual(bench.listing(), before)


class PartsThatTouch(Stepwise):
    """Of some solids a part above or below a plane touches itself at a corner: such a part isn't made."""

    PLANE = (0, 0, 1, -5)

    def test_two_ridges_that_meet_in_a_corner(self):
        solid = self.surface([[5, 8, 5], [2, 5, 2], [5, 8, 5]])
        self.refuse('Meets', lambda: self.bench.cut(solid, self.PLANE))
        self.refuse('Meets', lambda: self.bench.cut(solid, self.PLANE, keep='above'))
        self.assertEqual(len(self.one_step(lambda: self.bench.trim(solid, self.PLANE))), 2)

    def test_a_pit_that_ends_in_the_plane(self):
        solid = self.surface([[9, 9, 9], [9, 5, 9], [9, 9, 9]])
        self.refuse('Meets', lambda: self.bench.cut(solid, self.PLANE))
        self.refuse('Meets', lambda: self.bench.cut(solid, self.PLANE, keep='above'))
        self.refuse('Meets', lambda: self.bench.trim(solid, (0, 0, -1, 5)))
        self.assertEqual(len(self.one_step(lambda: self.bench.trim(solid, self.PLANE))), 1)

    def test_touching_from_before_is_no_hindrance(self):
        solid = self.surface([[9, 9, 9], [9, 5, 9], [9, 9, 9]])
        part = self.bench.split(solid, self.PLANE).solid
        self.assertEqual([finding.kind for finding in check(self.bench.listing().only(part)).findings], ['touching'])
        self.assertEqual(len(self.bench.cut(part, (0, 0, 1, -7)).lower_caps), 1)


class NothingCut(Stepwise):
    """A plane between two pieces of one solid cuts no edge."""

    def test_it_takes_no_new_numbers_but_that_of_the_solid(self):
        bench = self.bench
        legs = bench.split(bench.profile(U_SHAPE, along=(0, 0, 2)), (0, 1, 0, -8))
        bench.label(bench.face(bench.faces(solid=legs.solid, plane=(1, 0, 0, -12)).one()), 'right')
        made = self.one_step(lambda: bench.split(legs.solid, (1, 0, 0, -6)))
        self.assertEqual(made[1:], ((), (), (), (), ()))
        self.assertEqual([bench.volume(solid) for solid in (legs.solid, made.solid)], [32, 32])
        self.assertEqual([look.name for look in bench.labels.values()], ['right'])
        self.assertEqual(bench.block((90, 0, 0), (1, 1, 1)).top, max(bench.listing().faces) - 5)
        bench.save(self.folder / 'part.gwb')
        with Workbench.load(self.folder / 'part.gwb', library()) as again:
            self.assertEqual(again.listing(), bench.listing())

    def setUp(self):
        super().setUp()
        self.folder = folder_of(self)


class LabelledStep(Stepwise):
    """A stepped solid, which split doesn't cut level with its step, and labels."""

    def test_both_parts_of_a_face_have_its_label(self):
        bench = self.bench
        step = bench.profile([(0, 0, 0), (8, 0, 0), (8, 0, 4), (4, 0, 4), (4, 0, 8), (0, 0, 8)], along=(0, 8, 0)).solid
        bench.label(bench.faces(plane=(0, -1, 0, 0)).one(), 'front')
        bench.label(bench.solid(step), 'step')
        for cut in (lambda: bench.cut(step, (0, 0, 1, -4)), lambda: bench.cut(step, (0, 0, 1, -4), keep='above'), lambda: bench.trim(step, (0, 0, 1, -4))):
            self.one_step(cut)
            front = bench.faces(plane=(0, -1, 0, 0))
            self.assertEqual({bench.labels['face', face.number].name for face in front}, {'front'})
            self.assertEqual([bench.labels['solid', solid].name for solid in bench.solids().numbers], ['step'] * len(bench.solids().numbers))
            bench.undo()


class Joined(Stepwise):
    """Faces of several solids that become one face."""

    def test_a_label_that_is_lost_is_told(self):
        left, right = (self.bench.block((x, 0, 0), (4, 4, 4)) for x in (0, 4))
        self.bench.label(self.bench.face(right.top), colour='#FF0000')
        told = f'^faces {left.top} and {right.top} become one, which keeps the label of face {left.top}$'
        with self.assertWarnsRegex(UserWarning, told) as told:
            left_alone = self.bench.union([left, right])
        self.assertEqual(left_alone, left.solid)
        self.assertEqual([warning.filename for warning in told.warnings], [__file__])

    def test_labels_that_are_alike_are_kept_in_silence(self):
        left, right = (self.bench.block((x, 0, 0), (4, 4, 4)) for x in (0, 4))
        for block in (left, right):
            self.bench.label(self.bench.face(block.top), colour='#FF0000')
        with warnings.catch_warnings():
            warnings.simplefilter('error')
            self.bench.union([left, right])
        self.assertEqual(self.bench.labels['face', left.top].colour, (255, 0, 0))
