"""Polygons for circles: the same corners of drills and sketches, alike in all quarters, and what is told of them."""

import unittest
import warnings
from fractions import Fraction
from math import pi

from support import opened

from gwb import Refused


class Circles(unittest.TestCase):
    """A plate of 100 by 100 by 10."""

    def setUp(self):
        self.bench = opened(self, 1)
        self.plate = self.plate_of(self.bench)

    def plate_of(self, bench):
        return bench.block((0, 0, 0), (100, 100, 10))

    def test_a_sketch_has_the_corners_of_a_drill(self):
        sketch, tried = self.bench.sketch(self.plate.top), 0
        with warnings.catch_warnings():
            warnings.simplefilter('ignore')
            for radius in range(2, 41):
                for sides in (4, 5, 6, 8, 12, 16, 24):
                    points = sketch.polygon((50, 50), radius, sides)
                    corners = {(x - 50, y - 50) for x, y, _ in points}
                    self.assertEqual(corners, {(x, -y) for x, y in corners}, (radius, sides))
                    self.assertTrue(sides % 4 or corners == {(-y, x) for x, y in corners}, (radius, sides))
                    if len(corners) == sides:
                        self.assertEqual(list(self.bench.drill(self.plate.top, (50, 50, 10), radius, sides).points), points)
                        self.bench.undo()
                    tried += 1
        self.assertEqual(tried, 273)

    def test_what_lies_on_the_circle(self):
        bench = opened(self, Fraction(1, 1000))
        top = self.plate_of(bench).top
        for circle, least, greatest in (('corners', 4.619, 5.001), ('flats', 5, 5.413), ('area', 4.868, 5.271)):
            hole = bench.drill(top, (50, 50, 10), 5, 8, circle=circle)
            self.assertLessEqual(least, hole.reach[0])
            self.assertLess(hole.reach[0], hole.reach[1])
            self.assertLessEqual(hole.reach[1], greatest)
            gone = 100 * 100 - bench.volume(1) / 10
            self.assertTrue(circle != 'area' or abs(gone / 25 - Fraction(pi)) < Fraction(1, 1000))
            bench.undo()

    def test_sides_are_chosen(self):
        bench = opened(self, Fraction(1, 1000))
        top = self.plate_of(bench).top
        for radius, within, sides in ((5, '1/20', 24), (20, '1/20', 48), (20, '1/2', 16), (1, '1/20', 12), (1, '1', 8)):
            hole = bench.drill(top, (50, 50, 10), radius, within=within, depth=1)
            self.assertEqual(len(hole.sides), sides)
            self.assertGreater(hole.reach[0], radius - Fraction(within) - Fraction(1, 500))
            bench.undo()

    def test_what_lies_far_beside_the_circle_is_told(self):
        with self.assertWarnsRegex(UserWarning, '^drill: sides and corners lie 4.851 to 5.657 from the center of a circle of radius 5 mm; a finer step'):
            self.bench.drill(self.plate.top, (50, 50, 10), radius=5, sides=8)
        with self.assertWarnsRegex(UserWarning, '^polygon: sides and corners lie '):
            self.bench.sketch(self.plate.bottom).polygon((20, 20), 3, 8)
        fine = opened(self, Fraction(1, 100))
        with warnings.catch_warnings():
            warnings.simplefilter('error')
            fine.drill(self.plate_of(fine).top, (50, 50, 10), radius=5, sides=8)

    def test_by_its_diameter(self):
        for words in ({'diameter': 20}, {'diameter': 21}, {'diameter': 21, 'depth': 4}, {'radius': 10, 'circle': 'flats', 'depth': 4}):
            hole = self.bench.drill(self.plate.top, (50, 50, 10), sides=12, **words)
            self.assertEqual(len(self.bench.face(self.plate.top).rings), 1)
            self.assertEqual(self.bench.face(hole.other).number == self.plate.bottom, 'depth' not in words)
            self.assertEqual(max(x for x, _, _ in hole.points) - 50, 11 if words != {'diameter': 20} else 10)
            self.bench.undo()
        self.assertRaisesRegex(TypeError, '^radius: a radius or a diameter is wanted$', self.bench.drill, self.plate.top, (50, 50, 10))
        self.assertRaisesRegex(TypeError, '^diameter: the radius is given already$', self.bench.drill, self.plate.top, (50, 50, 10), 5, diameter=10)

    def test_refused_alike(self):
        slope = self.bench.profile([(0, 0, 90), (30, 0, 90), (30, 40, 90)], along=(0, 0, 9))
        face = self.bench.faces(solid=slope.solid, containing=(15, 20, 94)).one()
        for words in ({'radius': 3}, {'diameter': 7}, {'radius': 3, 'circle': 'flats'}):
            for name, where, center in (('NoFace', 99, (0, 0, 0)), ('NotAcross', face, (15, 20, 94)), ('NotInPlane', self.plate.top, (50, 50, 9)),
                                        ('OutlineOutside', self.plate.top, (1, 50, 10))):
                with self.assertRaises(Refused) as caught:
                    self.bench.drill(where, center, sides=8, **words)
                self.assertEqual(caught.exception.name, name, words)
