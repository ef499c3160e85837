"""Cuts whose points aren't whole: where they lie, the factor, and near planes, which gwb takes."""

import random
import subprocess
import unittest
from dataclasses import replace
from fractions import Fraction
from itertools import count

from support import box, listing, model_in, program

from gwb.geometry.congruences import Congruence, in_all
from gwb.geometry.crossings import NoPart, crossings, height
from gwb.geometry.lattice_cuts import off_lattice_cut
from gwb.geometry.moved import changed, scaling
from gwb.geometry.near_planes import NearPlane, NearPlanes

CUBE = model_in(listing(box((0, 0, 0), (3, 3, 3))[0], box((0, 0, 0), (3, 3, 3))[1]))


def block(*sizes):
    """The model of a block at the origin."""
    points, faces = box((0, 0, 0), sizes)
    return model_in(listing(points, faces))


def prism(points, depth):
    """The script of a prism, and its model: the points run counterclockwise at the height 0."""
    corners = ' '.join(f'{x} {y} 0' for x, y in points)
    size = len(points)
    walls = [[(k + 1, (k + 1) % size + 1, (k + 1) % size + size + 1, k + size + 1)] for k in range(size)]
    faces = [[tuple(range(size, 0, -1))], [tuple(range(size + 1, 2 * size + 1))], *walls]
    model = model_in(listing([(x, y, z) for z in (0, depth) for x, y in points], faces))
    return f'lamina 1 {corners}\nsweep 1 0 0 {depth}\n', model


def replies(script):
    """What gwb answers to a script."""
    return subprocess.run([program()], input=script.encode(), stdout=subprocess.PIPE, check=False).stdout.decode().splitlines()


def oblique(seed):
    """Plates of three outlines with natural oblique cuts: the script, the model and the plane."""
    rolls = random.Random(seed)
    for turn in count():
        x, y, z = (rolls.choice((10, 20, 24, 30, 40, 60)) for _ in range(3))
        outline = ([(0, 0), (x, 0), (x, y), (0, y)], [(0, 0), (x, 0), (x + 5, y), (x // 2, y + 11), (-4, y // 2)],
                   [(0, 0), (x, 0), (x, 8), (8, 8), (8, y), (0, y)])[turn % 3]
        normal = [rolls.randint(-3, 5) for _ in range(3)]
        if sum(part != 0 for part in normal) > 1:
            corner = [rolls.randint(0, side) for side in (x, y, z)]
            yield (*prism(outline, z), (*normal, -sum(part * place for part, place in zip(normal, corner))))


def refused(number, seed):
    """So many of those cuts that are off the lattice."""
    found = ((script, model, plane) for script, model, plane in oblique(seed)
             if not all(crossing.is_whole for crossing in crossings(model, 1, plane)))
    return [one for one, _ in zip(found, range(number))]


class Places(unittest.TestCase):
    """Where a plane cuts, and the factor."""

    def test_a_slope_through_a_cube(self):
        cut = off_lattice_cut(CUBE, 1, (2, 3, 0, -4))
        self.assertEqual({crossing.point for crossing in cut.off_lattice}, {(0, Fraction(4, 3), 0), (0, Fraction(4, 3), 3)})
        self.assertEqual({crossing.point for crossing in cut.crossings} - {crossing.point for crossing in cut.off_lattice}, {(2, 0, 0), (2, 0, 3)})
        self.assertEqual((cut.factor, cut.fits, cut.scaled_plane), (3, True, (2, 3, 0, -12)))

    def test_the_factor_is_the_least(self):
        for _, model, plane in refused(15, 1):
            cut = off_lattice_cut(model, 1, plane, most=0)
            for factor in range(1, min(cut.factor, 40) + 1):
                larger = crossings(changed(model, scaling(factor)), 1, (*plane[:3], plane[3] * factor))
                self.assertEqual(all(crossing.is_whole for crossing in larger), factor == cut.factor)

    def test_a_factor_that_does_not_fit(self):
        cut = off_lattice_cut(block(999_999_999, 3, 3), 1, (1, 2, 2, -500_000_000))
        self.assertEqual((cut.factor, cut.fits), (1, True))
        cut = off_lattice_cut(block(999_999_999, 3, 3), 1, (2, 1, 1, -500_000_000))
        self.assertEqual((cut.factor, cut.fits), (2, False))
        self.assertIn('# times 2 all points are whole, but the model would lie past 1,000,000,000', cut.advice(2))

    def test_a_line_that_stays_the_same_is_not_said_again(self):
        cut = off_lattice_cut(block(3, 4, 5), 1, (3, -2, 0, 0))
        self.assertEqual((cut.factor, cut.scaled_plane), (3, cut.plane))
        self.assertIn('# times 3 (gwb-script --scale 3) all points are whole, by the same line', cut.advice(2))
        self.assertNotIn('split 1 3 -2 0 0 2', cut.advice(2))

    def test_planes_that_move_the_cut_far_are_left_out(self):
        moved = [Fraction(1), Fraction(4), Fraction(5)]
        tilted = tuple(NearPlane((1, 0, at, 0), False, square) for at, square in enumerate(moved, 1))
        cut = replace(off_lattice_cut(block(20, 3, 3), 1, (2, 0, 0, -3)), parallel=None, tilted=tilted)
        self.assertEqual([line for line in cut.advice(2) if line.startswith('split')][1:], ['split 1 1 0 1 0 2', 'split 1 1 0 2 0 2'])

    def test_a_parallel_plane_that_moves_the_cut_far_is_told_without_a_line(self):
        told = off_lattice_cut(block(12, 12, 12), 1, (1, 5, 0, -46)).advice(2)
        self.assertIn('# a parallel plane that cuts at whole points moves the cut by at least 3.20 along an edge', told)
        self.assertEqual([line for line in told if line.startswith('split 1 1 5 0 ')], ['split 1 1 5 0 -230 2'])

    def test_a_whole_cut_needs_nothing(self):
        cut = off_lattice_cut(CUBE, 1, (1, 0, 0, -1))
        self.assertEqual((cut.factor, cut.off_lattice, cut.parallel, cut.tilted, cut.advice(2)), (1, (), None, (), []))

    def test_no_parallel_plane(self):
        cut = off_lattice_cut(model_in(listing([(0, 0, 0), (1, 0, 0), (0, 1, 0), (0, 0, 1)], [[(1, 3, 2)], [(1, 2, 4)], [(2, 3, 4)], [(1, 4, 3)]])),
                              1, (2, 2, 2, -1))
        self.assertEqual((cut.factor, cut.parallel, cut.tilted), (2, None, ()))
        self.assertEqual(cut.advice(7)[3:], ['# times 2 (gwb-script --scale 2) all points are whole:', 'split 1 2 2 2 -2 7',
                                             '# no parallel plane cuts at whole points'])

    def test_a_plane_that_misses(self):
        self.assertEqual(off_lattice_cut(CUBE, 1, (2, 0, 0, -7)).crossings, ())
        self.assertIsNone(NearPlanes(CUBE, 1, (2, 0, 0, -7)).parallel())
        self.assertEqual(NearPlanes(CUBE, 1, (2, 0, 0, -7)).tilted(), [])

    def test_refusals(self):
        with self.assertRaisesRegex(NoPart, 'no solid 2'):
            off_lattice_cut(CUBE, 2, (2, 0, 0, -3))
        with self.assertRaisesRegex(ValueError, 'all zero'):
            off_lattice_cut(CUBE, 1, (0, 0, 0, 1))


class Near(unittest.TestCase):
    """Planes that would do."""

    def test_the_parallel_one_is_the_nearest(self):
        for _, model, plane in refused(30, 2):
            found = NearPlanes(model, 1, plane).parallel()
            near = NearPlanes(model, 1, plane)
            levels = [height((*plane[:3], 0), point) for point in model.vertices.values()]
            reach = max(levels) - min(levels)
            gap = None if found is None else abs(found.plane[3] * self.factor(plane, found.plane) - plane[3])
            for offset in range(plane[3] - reach, plane[3] + reach + 1):
                if near.is_whole((*plane[:3], offset)) and near.is_cuttable((*plane[:3], offset)):
                    self.assertIsNotNone(found)
                    self.assertLessEqual(gap, abs(offset - plane[3]))

    @staticmethod
    def factor(plane, reduced):
        """How often the normal of one plane is that of the other."""
        return next(Fraction(long, short) for long, short in zip(plane, reduced) if short)

    def test_how_far_they_move_the_cut(self):
        self.assertEqual(NearPlane((1, 0, 0, 0), True, Fraction(1, 4)).hundredths_moved, 50)
        self.assertEqual(NearPlane((1, 0, 0, 0), True, Fraction(2)).hundredths_moved, 142)
        self.assertEqual([near.square_moved for near in NearPlanes(CUBE, 1, (2, 0, 0, -3)).tilted()], [Fraction(1, 4)] * 3)

    def test_tilted_ones_are_tilted_and_look_the_same_way(self):
        for near in NearPlanes(CUBE, 1, (-2, 0, 0, 3)).tilted(20):
            self.assertFalse(near.is_parallel)
            self.assertLess(near.plane[0], 0)
            self.assertNotEqual(near.plane[1:3], (0, 0))

    def test_gwb_takes_all_that_is_told(self):
        taken = within_two = 0
        cuts = refused(30, 3)
        for script, model, plane in cuts:
            cut = off_lattice_cut(model, 1, plane)
            near = [one for one in (cut.parallel, *cut.tilted) if one is not None]
            splits = [' '.join(map(str, ('split', 1, *one.plane, 2))) for one in near]
            told = [line for line in cut.advice(2) if line.startswith('split')][plane[3] != 0:]
            self.assertEqual(told, [split for one, split in zip(near, splits) if one.square_moved <= max(1, Fraction(cut.longest ** 2, 100))])
            tried = ''.join(f'{line}\nundo\n' for line in splits)
            answers = replies(script + 'split 1 {} {} {} {} 2\n'.format(*plane) + tried)
            self.assertTrue(answers[2].startswith('refused 37 '), answers)
            self.assertEqual(answers[:2] + answers[3:], ['ok'] * (2 + 2 * len(near)))
            taken += len(near)
            within_two += any(one.square_moved <= 4 for one in cut.tilted)
        self.assertGreater(taken, 2 * len(cuts))
        self.assertGreater(3 * within_two, len(cuts))

    def test_gwb_takes_the_cut_of_the_model_times_the_factor(self):
        for sizes, plane in (((3, 3, 3), (2, 0, 0, -3)), ((10, 12, 7), (2, 3, 1, -21)), ((30, 20, 10), (3, 4, 5, -61))):
            cut = off_lattice_cut(block(*sizes), 1, plane)
            script = 'block 1 0 0 0 {} {} {}\n'.format(*(cut.factor * size for size in sizes))
            self.assertGreater(cut.factor, 1)
            self.assertEqual(replies(script + 'split 1 {} {} {} {} 2\n'.format(*cut.scaled_plane)), ['ok', 'ok'])


class Congruences(unittest.TestCase):
    """Numbers that leave given remainders, against a search."""

    def test_pairs(self):
        for modulus in range(1, 13):
            for other in range(1, 13):
                one, two = Congruence(5 % modulus, modulus), Congruence(2 % other, other)
                wanted = [k for k in range(modulus * other) if k % modulus == one.remainder and k % other == two.remainder]
                both = in_all([one, two])
                self.assertEqual(both is None, not wanted)
                if both is not None:
                    self.assertEqual(both.remainder, wanted[0])
                    self.assertEqual([k for k in range(modulus * other) if both.at_most(k) == k], wanted)
