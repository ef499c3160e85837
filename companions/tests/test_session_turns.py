"""Turns by degrees, and along a vector whose length is whole; what is near where a turn isn't whole."""

import unittest

from support import opened

from gwb import Refused
from gwb.checks.check import check
from gwb.geometry.whole_turns import nearest_turn, whole_turn


class Turns(unittest.TestCase):
    """A block of 30 by 40 by 20."""

    def setUp(self):
        self.bench = opened(self)
        self.block = self.bench.block((0, 0, 0), (30, 40, 20))

    def box(self, solid):
        found = self.bench.bounding_box(solid)
        return found.low, found.high

    def unchanged(self, kind, words, act):
        before = self.bench.listing(), self.bench.script()
        self.assertRaisesRegex(kind, words, act)
        self.assertEqual((self.bench.listing(), self.bench.script()), before)

    def test_by_quarters(self):
        for degrees in (90, -270, 450, 90.0):
            self.bench.turn(self.block, 'z', degrees=degrees)
            self.assertEqual(self.box(self.block), ((-40, 0, 0), (0, 30, 20)))
            self.bench.undo()

    def test_what_is_no_multiple_of_90_is_no_turn(self):
        near = r'to=\(119, 120\) turns by 45.24 degrees, and wants a step 169 times finer at most$'
        self.unchanged(TypeError, '^times: turn takes degrees=90, a multiple of 90, or to=', lambda: self.bench.turn(self.block, 'z', 45))
        self.unchanged(TypeError, '^times: pattern_around takes degrees=90', lambda: self.bench.pattern_around(self.block, 4, 'z', 1))
        self.unchanged(ValueError, f'^degrees: 45 is no multiple of 90.*{near}', lambda: self.bench.turn(self.block, 'z', degrees=45))
        self.unchanged(ValueError, f'^degrees: 45 .*{near}', lambda: self.bench.pattern_around(self.block, 8, 'z', degrees=45))
        self.unchanged(ValueError, rf'^to: the length of \(1, 1\) is not whole: {near}', lambda: self.bench.turn(self.block, 'z', to=(1, 1)))
        self.unchanged(ValueError, r'^to: the length of \(0, 0\) is not whole$', lambda: self.bench.turn(self.block, 'z', to=(0, 0)))
        self.unchanged(ValueError, '^to: an angle in degrees is given already$', lambda: self.bench.turn(self.block, 'z', degrees=180, to=(4, 3)))

    def test_along_a_vector(self):
        self.bench.turn(self.block, 'z', to=(8, 6))
        self.assertEqual(self.box(self.block), ((-24, 0, 0), (24, 50, 20)))
        self.assertEqual(self.bench.volume(self.block), 24000)
        self.assertEqual(check(self.bench.listing()).findings, [])
        self.bench.turn(self.block, 'z', to=(4, -3))
        self.assertEqual(self.box(self.block), ((0, 0, 0), (30, 40, 20)))
        for _ in range(2):
            self.bench.undo()
        for axis, way, high in (('x', (3, 4), (30, 24, 44)), ('y', (4, 3), (36, 40, 16))):
            self.bench.turn(self.block, axis, to=way)
            self.assertEqual(self.box(self.block)[1], high)
            self.bench.undo()

    def test_points_that_would_not_be_whole(self):
        with self.assertRaises(Refused) as caught:
            self.bench.turn(self.block, 'z', to=(12, 5))
        self.assertEqual(caught.exception.name, 'OffLattice')
        self.assertRegex(str(caught.exception), 'between whole coordinates; in a step 13 times finer, which refine')

    def test_a_ring(self):
        self.bench.label(self.bench.solid(self.block.solid), 'Blade')
        block = self.bench.block((0, 0, 0), (50, 25, 5))
        made = self.bench.pattern_around(block, 3, 'z', to=(3, 4))
        self.assertEqual([self.bench.volume(copy) for copy in made], [6250] * 2)
        self.assertEqual([self.box(copy) for copy in made], [((-20, 0, 0), (30, 55, 5)), ((-38, -7, 0), (0, 48, 5))])
        before = self.bench.script()
        self.bench.undo()
        self.assertEqual(len(self.bench.solids()), 2)
        self.bench.redo()
        self.assertEqual(self.bench.script(), before)
        self.unchanged(ValueError, '^count: 5 copies by 90 degrees lead back$', lambda: self.bench.pattern_around(block, 5, 'z'))
        self.unchanged(ValueError, '^to: copies by 0 degrees lie where the solid does$', lambda: self.bench.pattern_around(block, 2, 'z', to=(5, 0)))

    def test_near_turns(self):
        for degrees in range(0, 720, 7):
            near = nearest_turn(degrees)
            self.assertEqual(near, whole_turn(*near.way))
            self.assertLess(abs((near.degrees - degrees + 180) % 360 - 180), 5.7)
        self.assertEqual((whole_turn(-8, 6), whole_turn(0, -7), whole_turn(1, 2)), (((-4, 3), 5), ((0, -1), 1), None))
