"""Measures of what a workbench holds, its sections, and cuts off the lattice."""

import unittest
from fractions import Fraction
from random import Random

from support import STEP, library, opened, step_of

from gwb import NotParallel, NoVolume, Refused, Workbench
from gwb.geometry.lattice_cuts import off_lattice_cut


class Measures(unittest.TestCase):
    """A block of 2 by 3 by 6, and one of 5 beside it."""

    def setUp(self):
        self.bench = opened(self, step_of(self, 'test_cuts_off_the_lattice', 'test_planes_out_of_range'))
        self.block = self.bench.block((0, 0, 0), (2, 3, 6))
        self.other = self.bench.block((100, 0, 0), (5, 5, 5))

    def test_of_a_solid(self):
        solid = self.bench.solid(self.block.solid)
        box = self.bench.bounding_box(solid)
        self.assertEqual((box.low, box.high, box.sizes), ((0, 0, 0), (2, 3, 6), (2, 3, 6)))
        self.assertEqual(self.bench.centroid(solid), (1, Fraction(3, 2), 3))
        self.assertEqual(self.bench.surface_area(solid), 72.0)
        self.assertEqual(self.bench.inertia(solid).moments, (Fraction(36 * 45, 12), Fraction(36 * 40, 12), Fraction(36 * 13, 12)))
        self.assertEqual(self.bench.inertia(solid, (0, 0, 0)).moments, (Fraction(36 * 45, 3), Fraction(36 * 40, 3), Fraction(36 * 13, 3)))
        self.assertEqual(self.bench.centroid(self.other.solid), (Fraction(205, 2), Fraction(5, 2), Fraction(5, 2)))

    def test_of_a_face_and_an_edge(self):
        top, bottom = (self.bench.faces(solid=self.block.solid, plane=(0, 0, 1, -height)).one() for height in (6, 0))
        self.assertEqual((self.bench.square_area(top), self.bench.area(top.number)), (36, 6.0))
        self.assertEqual((self.bench.square_distance(top, bottom), self.bench.distance(bottom, top)), (36, 6.0))
        edge = self.bench.edges(between=(top, self.bench.faces(plane=(1, 0, 0, 0)).one())).one()
        self.assertEqual((self.bench.square_length(edge), self.bench.length(-edge.number)), (9, 3.0))

    def test_of_faces_of_two_solids(self):
        end = self.bench.faces(plane=(1, 0, 0, -2)).one()
        start = self.bench.faces(plane=(1, 0, 0, -100)).one()
        self.assertEqual(self.bench.distance(end, start), 98.0)
        with self.assertRaises(NotParallel):
            self.bench.distance(end, self.block.top)

    def test_sections(self):
        found = self.bench.section(self.block.solid, (0, 0, 1, -2))
        self.assertEqual([sorted(polygon) for polygon in found], [[(0, 0, 2), (0, 3, 2), (2, 0, 2), (2, 3, 2)]])
        self.assertEqual(self.bench.section(self.block.solid, (0, 0, 1, -9)), [])
        with self.assertRaises(ValueError):
            self.bench.section(self.block.solid, (0, 0, 0, 1))

    def test_cuts_off_the_lattice(self):
        plane = (2, 3, 5, -17)
        with self.assertRaisesRegex(Refused, 'NotLattice'):
            self.bench.split(self.block.solid, plane)
        cut = self.bench.off_lattice(self.block.solid, plane)
        self.assertTrue(cut.off_lattice)
        near = [near for near in (cut.parallel, *cut.tilted) if near is not None]
        self.assertTrue(near)
        for instead in near:
            self.bench.split(self.block.solid, instead)
            self.assertEqual(self.bench.off_lattice(self.block.solid, instead).factor, 1)
            self.bench.undo()
        self.bench.refine(cut.factor)
        self.bench.split(self.block.solid, plane)

    def test_cuts_off_the_lattice_as_they_are_worked_out_here(self):
        random, seen = Random(83), set()
        for _ in range(12):
            with Workbench(library(), step=1) as bench:
                block = bench.block((0, 0, 0), [random.randrange(2, 9) for _ in range(3)])
                bench.chamfer(1, 1)
                for plane in ([*(random.randrange(-4, 5) for _ in range(2)), 1, random.randrange(-20, 20)] for _ in range(4)):
                    wanted, cut = off_lattice_cut(bench.listing(), 1, tuple(plane)), bench.off_lattice(block, plane)
                    self.assertEqual([(at.edge, at.point, at.is_whole) for at in cut.crossings], [(at.edge, at.point, at.is_whole) for at in wanted.crossings])
                    self.assertEqual((cut.factor, cut.fits), (wanted.factor, wanted.fits))
                    planes = [near and near.plane for near in (wanted.parallel, *wanted.tilted)]
                    self.assertEqual([near and near[:4] for near in (cut.parallel, *cut.tilted)], planes)
                    seen.add((bool(cut.crossings), cut.factor > 1, cut.parallel is None, len(cut.tilted)))
        self.assertGreater(len(seen), 3)

    def test_planes_out_of_range(self):
        """What split refuses for the plane itself is no cut off the lattice."""
        for value, plane in ((1, (10 ** 9 + 1, 0, 0, -1)), (2, (0, -10 ** 9 - 1, 0, 1)), (3, (10 ** 9, 0, 2 * 10 ** 9, -1)), (4, (0, 0, 1, 2 ** 62))):
            for act in (self.bench.split, self.bench.off_lattice):
                with self.subTest(plane), self.assertRaises(Refused) as caught:
                    act(self.block.solid, plane)
                self.assertEqual((caught.exception.name, caught.exception.number, caught.exception.value), ('PlaneRange', 35, value))
        self.assertEqual(self.bench.off_lattice(self.block.solid, (0, 0, 10 ** 9, -1)).factor, 10 ** 9)

    def test_they_follow_commands_and_are_no_step(self):
        self.bench.sweep(self.block.top, (0, 0, 4))
        script = self.bench.script()
        self.assertEqual(self.bench.bounding_box(self.block.solid).high, (2, 3, 10))
        self.assertEqual(self.bench.script(), script)
        self.bench.undo()
        self.assertEqual(self.bench.bounding_box(self.block.solid).high, (2, 3, 6))

    def test_what_is_not_there(self):
        for act in (self.bench.bounding_box, self.bench.centroid, self.bench.surface_area, self.bench.inertia):
            with self.assertRaisesRegex(Refused, 'no solid 77'):
                act(77)
        for act in (self.bench.area, self.bench.square_area, lambda face: self.bench.distance(self.block.top, face)):
            with self.assertRaisesRegex(Refused, 'no face 77'):
                act(77)
        with self.assertRaisesRegex(Refused, 'no edge 77'):
            self.bench.length(77)
        with self.assertRaises(NoVolume):
            self.bench.centroid(self.bench.lamina([(0, 0, 50), (9, 0, 50), (9, 9, 50)]).solid)

    def test_things_of_another_kind_or_bench(self):
        with self.assertRaises(TypeError):
            self.bench.centroid(self.bench.face(self.block.top))
        with Workbench(library(), step=STEP) as second:
            second.block((0, 0, 0), (1, 1, 1))
            with self.assertRaises(ValueError):
                self.bench.centroid(second.solid(1))
