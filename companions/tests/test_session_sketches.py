"""Outlines in two coordinates of a face, and selections that are combined."""

import unittest
from fractions import Fraction

from support import STEP, commands_of, opened

from gwb import Impossible, Refused
from gwb.geometry.measures import area_vector
from gwb.geometry.vectors import cross, dot, same_direction


class Sketched(unittest.TestCase):
    """A block of 40 by 20 by 10."""

    def setUp(self):
        self.bench = opened(self)
        self.block = self.bench.block((100, 200, 300), (40, 20, 10))

    def refused(self, name, *words, **named):
        with self.assertRaises(Refused) as caught:
            self.bench.sketch(*words, **named)
        self.assertEqual(caught.exception.name, name)


class Sketches(Sketched):
    """Coordinates on faces."""

    def test_the_top(self):
        sketch = self.bench.sketch(self.block.top)
        self.assertEqual((sketch.origin, sketch.right, sketch.up), ((100, 200, 310), (1, 0, 0), (0, 1, 0)))
        self.assertEqual(sketch.point(3, 4), (103, 204, 310))
        self.assertEqual(sketch.rectangle((2, 3), (5, 1)), [(102, 203, 310), (107, 203, 310), (107, 204, 310), (102, 204, 310)])
        self.assertEqual(sketch.polygon((10, 10), 5, 4), [(115, 210, 310), (110, 215, 310), (105, 210, 310), (110, 205, 310)])

    def test_outlines_run_counterclockwise_as_seen_from_outside(self):
        slanted = self.bench.profile([(0, 0, 0), (30, 0, 0), (30, 40, 0)], along=(0, 0, 9)).solid
        for face in (*self.bench.faces(solid=self.block), *self.bench.faces(solid=slanted)):
            with self.subTest(face=face):
                sketch = self.bench.sketch(face)
                self.assertEqual((dot(sketch.right, sketch.up), dot(sketch.right, sketch.right)), (0, dot(sketch.up, sketch.up)))
                self.assertTrue(same_direction(cross(sketch.right, sketch.up), face.normal))
                self.assertEqual(sketch.origin, min(face.points))
                self.assertTrue(same_direction(area_vector(sketch.rectangle((1, 1), (2, 3))), face.normal))

    def test_features_take_what_it_gives(self):
        side = self.bench.faces(plane=(1, 0, 0, -140)).one()
        sketch = self.bench.sketch(side, origin=(140, 210, 305))
        self.bench.pocket(side, sketch.rectangle((-2, -2), (4, 4)), 3)
        self.bench.hole(self.block.top, self.bench.sketch(self.block.top).polygon((20, 10), 4, 8))
        self.assertEqual(len(self.bench.face(side).rings), 1)
        self.assertEqual(self.bench.count(self.block).rings, 3)

    def test_a_direction_of_ones_own(self):
        slope = self.bench.profile([(0, 0, 0), (30, 0, 0), (30, 40, 0)], along=(0, 0, 9))
        face = self.bench.faces(solid=slope.solid, containing=(15, 20, 4)).one()
        sketch = self.bench.sketch(face)
        self.assertEqual((sketch.origin, sketch.right, sketch.up), ((0, 0, 0), (0, 0, 1), (Fraction(3, 5), Fraction(4, 5), 0)))
        sketch = self.bench.sketch(face, origin=(3, 4, 2), right=(3, 4, 0))
        self.assertEqual((sketch.right, sketch.up), ((Fraction(3, 5), Fraction(4, 5), 0), (0, 0, -1)))
        self.bench.pocket(face, sketch.rectangle((5, -5), (10, 5)), 5)
        self.assertEqual(self.bench.volume(slope), 5400 - 250)

    def test_what_is_no_sketch(self):
        self.refused('NoFace', 99)
        self.refused('NotInPlane', self.block.top, origin=(100, 200, 300))
        self.refused('NotInPlane', self.block.top, right=(0, 0, 1))
        self.refused('NotInPlane', self.block.top, up=(0, 0, 1))
        self.assertRaisesRegex(ValueError, '^right: it is zero$', self.bench.sketch, self.block.top, right=(0, 0, 0))
        corner = self.bench.profile([(0, 0, 0), (9, 0, 0), (0, 9, 0)], along=(0, 0, 9)).solid
        self.bench.split(corner, (1, 1, 1, -9))
        cap = self.bench.faces(solid=corner, normal=(1, 1, 1)).one()
        self.refused('NotInPlane', cap)
        self.refused('OffLattice', cap, right=(1, -1, 0))
        bent = self.bench.lamina([(0, 0, 50), (4, 0, 50), (4, 4, 51), (0, 4, 50)])
        self.refused('NotFlat', bent.front)
        self.assertRaisesRegex(ValueError, '^sides: 2 is outside 3', self.bench.sketch(1).polygon, (0, 0), 5, 2)

    def test_what_is_no_outline_is_named(self):
        sketch = self.bench.sketch(1)
        for error, words, draw in (
                (TypeError, r'^spots: a sequence is wanted, not the int 5$', lambda: sketch.points(5)),
                (ValueError, r'^spots\[1\]: 2 numbers are wanted, not 3$', lambda: sketch.points([(0, 0), (1, 2, 3)])),
                (TypeError, r'^corner: a sequence is wanted, not None$', lambda: sketch.rectangle(None, (1, 1))),
                (TypeError, r'^sizes\[1\]: a number .* is wanted, not the str .wide.$', lambda: sketch.rectangle((0, 0), (1, 'wide'))),
                (ValueError, r'^center: 2 numbers are wanted, not 1$', lambda: sketch.polygon((1,), 5, 6))):
            self.assertRaisesRegex(error, words, draw)


class Selections(Sketched):
    """Selections combined, and what was returned in the place of a solid."""

    def test_and_or_and_but_not(self):
        bench = self.bench
        up, all_faces = bench.faces(normal=(0, 0, 1)), bench.faces()
        along, level = bench.edges(along=(1, 0, 0)), bench.edges(length=40)
        self.assertEqual((all_faces & up).numbers, up.numbers)
        self.assertEqual((all_faces - up).numbers, tuple(number for number in all_faces.numbers if number != self.block.top))
        self.assertEqual((up | bench.faces(normal=(0, 0, -1))).numbers, (self.block.top, self.block.bottom))
        self.assertEqual((along & level).numbers, along.numbers)
        self.assertEqual(len((all_faces - up) | up), 6)
        self.assertIn(up.one(), all_faces)
        self.assertNotIn(up.one(), all_faces - up)
        self.assertRaises(TypeError, lambda: up & along)
        self.assertRaises(TypeError, lambda: up | [1])

    def test_where(self):
        large = self.bench.faces().where(lambda face: self.bench.square_area(face) >= 400 ** 2)
        self.assertEqual(large.top().one().number, self.block.top)
        self.assertEqual(len(large), 4)

    def test_what_was_made_stands_for_its_solid(self):
        bench = self.bench
        copy = bench.copy(self.block, move=(40, 0, 0))
        self.assertEqual(bench.union([self.block, copy]), self.block.solid)
        part = bench.split(self.block, (1, 0, 0, -120))
        self.assertEqual((bench.volume(part), bench.volume(self.block)), (12000, 4000))
        self.assertEqual(bench.volume(bench.pattern(part, 2, (0, 0, 50))[0]), Fraction(12000))
        self.assertEqual(len(bench.faces(solid=bench.copy(part, move=(0, 90, 0)))), 6)
        self.assertRaisesRegex(TypeError, '^solid: a whole number is wanted', bench.volume, bench.plane(1))


class Leaning(unittest.TestCase):
    """Pockets, bosses and drills by a vector."""

    def setUp(self):
        self.bench = opened(self)

    def test_a_chimney_in_a_roof(self):
        bench = self.bench
        house = bench.profile([(0, 0, 0), (40, 0, 0), (40, 0, 20), (20, 0, 40), (0, 0, 20)], along=(0, 30, 0))
        roof = bench.faces(normal=(1, 0, 1)).one()
        sketch, before = bench.sketch(roof, origin=(20, 0, 40), plan='z'), bench.volume(house)
        outline = sketch.rectangle((5, 10), (4, 6))
        told = r'^OffLattice: .*; along=\(-4, 0, -4\) is 5.657 mm long$' if STEP == 1 else r'; along=\(-3.536, 0, -3.536\) is 5.001 mm long$'
        with self.assertRaisesRegex(Impossible, told):
            bench.pocket(roof, outline, 5)
        bench.pocket(roof, outline, along=(0, 0, -5))
        self.assertEqual(before - bench.volume(house), 4 * 6 * 5)
        bench.boss(roof, sketch.rectangle((12, 20), (4, 6)), along=(0, 0, 9))
        self.assertEqual(bench.volume(house), before + 4 * 6 * (9 - 5))
        bench.undo()
        bench.undo()
        self.assertEqual(bench.volume(house), before)

    def test_a_drill_that_leans(self):
        block = self.bench.block((0, 0, 0), (40, 20, 10))
        for circle in ('corners', 'flats'):
            before = self.bench.volume(block)
            made = self.bench.drill(block.top, (10, 10, 10), 4, 4, circle=circle, along=(3, 1, -5))
            (a, b, *_), (c, d, *_), *_ = made.points
            self.assertEqual(before - self.bench.volume(block), 5 * 2 * ((a - 10) * (d - 10) - (b - 10) * (c - 10)))
            self.bench.undo()

    def test_which_way(self):
        block, points = self.bench.block((0, 0, 0), (9, 9, 9)), [(1, 1, 9), (4, 1, 9), (1, 4, 9)]
        before = self.bench.listing()
        for make, way in ((self.bench.pocket, (0, 0, 1)), (self.bench.pocket, (1, 0, 0)), (self.bench.boss, (0, 1, -1)), (self.bench.boss, (0, 0, 0))):
            with self.assertRaises(Impossible) as caught:
                make(block.top, points, along=way)
            self.assertEqual((caught.exception.name, caught.exception.value), ('AlongPlane', block.top))
        for make, word in ((self.bench.pocket, 'depth'), (self.bench.boss, 'height')):
            with self.assertRaisesRegex(TypeError, f'^{word}: a {word} is wanted, or along=, a vector$'):
                make(block.top, points)
            with self.assertRaisesRegex(TypeError, f'^along: a {word} is given already$'):
                make(block.top, points, 2, along=(0, 0, -2))
        self.assertEqual(self.bench.listing(), before)


class Tapered(unittest.TestCase):
    """Solids between two outlines."""

    BASE, SMALL = [(0, 0, 0), (10, 0, 0), (10, 10, 0), (0, 10, 0)], [(2, 2, 6), (8, 2, 6), (8, 8, 6), (2, 8, 6)]

    def setUp(self):
        self.bench = opened(self)

    def test_a_stump(self):
        for base, top, along, way in ((self.BASE, self.SMALL, None, 1), (self.BASE[::-1], self.SMALL[::-1], None, 1),
                                      (self.BASE, [(x, y, 0) for x, y, _ in self.SMALL], (0, 0, 6), 1), (self.BASE, [(x, y, -z) for x, y, z in self.SMALL], None, -1)):
            before = self.bench.listing()
            made = self.bench.profile(base, top=top, along=along)
            self.assertEqual((self.bench.volume(made), self.bench.face(made.far).normal, self.bench.face(made.base).normal),
                             (6 * Fraction(100 + 36 + 60, 3), (0, 0, way), (0, 0, -way)))
            for place, side in enumerate(made.sides):
                self.assertLessEqual({base[place], base[(place + 1) % 4]}, set(self.bench.face(side).points))
            self.bench.undo()
            self.assertEqual(self.bench.listing(), before)

    def test_what_is_none(self):
        small = self.SMALL
        for top, name, value, told in (
                ([(2, 2, 6), (8, 2, 7), (8, 8, 6), (2, 8, 6)], 'NotFlat', 0, 'the top is not flat'), (small[1:] + small[:1], 'NotFlat', 1, r'the side from points\[0\] on'),
                (small[2:] + small[:2], 'Meets', 0, 'cross or touch itself'), ([(x, y, 0) for x, y, _ in small], 'AlongPlane', 0, 'on one side'),
                ([*small[:3], small[0]], 'RepeatedPoint', 4, '')):
            with self.assertRaisesRegex(Refused, told) as caught:
                self.bench.profile(self.BASE, top=top)
            self.assertEqual((caught.exception.name, caught.exception.value), (name, value))
        with self.assertRaisesRegex(ValueError, '^top: 4 points are wanted'):
            self.bench.profile(self.BASE, top=small[:3])
        with self.assertRaisesRegex(TypeError, '^along: a vector is wanted, or top='):
            self.bench.profile(self.BASE)
        self.assertEqual(commands_of(self.bench), [])
