"""Exact measures and sections, against formulas of blocks, prisms and tetrahedra and against sums over triangulated boundaries."""

import subprocess
import unittest
from fractions import Fraction
from math import sqrt

from support import box, examples, lamina, listing, model_in, plate, program, turned

from gwb.errors import Unfit
from gwb.geometry.crossings import NoPart
from gwb.geometry.measures import area_vector, normal
from gwb.geometry.sections import section
from gwb.geometry.solid_measures import (NotParallel, NoVolume, area, bounding_box, centroid, distance, inertia, length, square_area,
                                         square_distance, square_length, surface_area, volume)
from gwb.geometry.touched_edges import touched_edges
from gwb.geometry.triangulation import face_triangles
from gwb.geometry.vectors import cross, dot
from gwb.protocol.listing import read_model
from gwb.protocol.replies import split_replies


def block(low, high):
    """The model of a block."""
    points, faces = box(low, high)
    return model_in(listing(points, faces))


BLOCK = block((1, 2, 3), (5, 9, 5))
TETRAHEDRON = model_in(listing([(0, 0, 0), (2, 0, 0), (0, 3, 0), (0, 0, 5)], [[(1, 3, 2)], [(1, 2, 4)], [(2, 3, 4)], [(1, 4, 3)]]))
PRISM = model_in(listing([(x, y, z) for z in (0, 6) for x, y in ((0, 0), (6, 0), (0, 3))],
                         [[(3, 2, 1)], [(4, 5, 6)], [(1, 2, 5, 4)], [(2, 3, 6, 5)], [(3, 1, 4, 6)]]))
PLATE = model_in(plate(2))
MODELS = (BLOCK, TETRAHEDRON, PRISM, PLATE)


def triangles(model):
    """The points of the triangles of all faces."""
    touched = touched_edges(model)
    for face in model.faces:
        for corners in face_triangles(model, face, touched):
            yield tuple(model.vertices[vertex] for vertex in corners)


def integral(model, term):
    """The sum over tetrahedra of triangles and the origin of a mean over each, by a rule for polynomials of degree two: a fifth of the mean of
    the four corners is taken, and four fifths of the value in the middle."""
    total = Fraction(0)
    for corners in triangles(model):
        six = dot(corners[0], cross(corners[1], corners[2]))
        middle = tuple(Fraction(sum(axis), 4) for axis in zip(*corners))
        mean = Fraction(sum(term(*corner) for corner in (*corners, (0, 0, 0))), 4)
        total += Fraction(six, 6) * (mean / 5 + term(*middle) * Fraction(4, 5))
    return total


class Solids(unittest.TestCase):
    """Boxes, volumes, centroids and moments."""

    def test_a_block(self):
        found = bounding_box(BLOCK, 1)
        self.assertEqual((found.low, found.high, found.sizes), ((1, 2, 3), (5, 9, 5), (4, 7, 2)))
        self.assertEqual(volume(BLOCK, 1), 56)
        self.assertEqual(centroid(BLOCK, 1), (3, Fraction(11, 2), 4))
        found = inertia(BLOCK, 1)
        self.assertEqual(found.moments, tuple(Fraction(56 * (a * a + b * b), 12) for a, b in ((7, 2), (4, 2), (4, 7))))
        self.assertEqual(found.products, (0, 0, 0))
        self.assertEqual(surface_area(BLOCK, 1), 2 * (28 + 8 + 14))

    def test_a_tetrahedron(self):
        self.assertEqual(volume(TETRAHEDRON, 1), 5)
        self.assertEqual(centroid(TETRAHEDRON, 1), (Fraction(1, 2), Fraction(3, 4), Fraction(5, 4)))
        found = inertia(TETRAHEDRON, 1, (0, 0, 0))
        self.assertEqual(found.moments, tuple(Fraction(5 * (a * a + b * b), 10) for a, b in ((3, 5), (2, 5), (2, 3))))
        self.assertEqual(found.products, tuple(Fraction(-5 * a * b, 20) for a, b in ((3, 5), (2, 5), (2, 3))))

    def test_a_prism(self):
        self.assertEqual(volume(PRISM, 1), 54)
        self.assertEqual(centroid(PRISM, 1), (2, 1, 3))
        self.assertEqual(inertia(PRISM, 1).moments[2], Fraction(54 * (36 + 9), 18))

    def test_the_axes_are_parallel(self):
        for model in MODELS:
            mass, centre = volume(model, 1), centroid(model, 1)
            own, moved = inertia(model, 1), inertia(model, 1, (7, -1, 2))
            way = [a - b for a, b in zip((7, -1, 2), centre)]
            for axis in range(3):
                self.assertEqual(moved.moments[axis] - own.moments[axis], mass * sum(part * part for place, part in enumerate(way) if place != axis))
                self.assertEqual(moved.products[axis] - own.products[axis], -mass * way[axis - 2] * way[axis - 1])

    def test_against_triangles(self):
        for model in MODELS:
            mass = integral(model, lambda x, y, z: 1)
            self.assertEqual(volume(model, 1), mass)
            self.assertEqual([part * mass for part in centroid(model, 1)], [integral(model, lambda *point: point[k]) for k in range(3)])
            found = inertia(model, 1, (0, 0, 0))
            self.assertEqual(found.moments[0], integral(model, lambda x, y, z: y * y + z * z))
            self.assertEqual(found.moments[2], integral(model, lambda x, y, z: x * x + y * y))
            self.assertEqual(found.products, (integral(model, lambda x, y, z: -y * z), integral(model, lambda x, y, z: -x * z),
                                              integral(model, lambda x, y, z: -x * y)))
            self.assertEqual(found.matrix[0][1:], (found.products[2], found.products[1]))

    def test_inside_out_and_flat(self):
        points, faces = box((0, 0, 0), (2, 3, 4))
        self.assertEqual(volume(model_in(listing(points, turned(faces))), 1), -24)
        self.assertEqual(centroid(model_in(listing(points, turned(faces))), 1), (1, Fraction(3, 2), 2))
        flat = model_in(lamina([(0, 0), (4, 0), (0, 4)]))
        self.assertEqual(volume(flat, 1), 0)
        with self.assertRaisesRegex(NoVolume, 'no volume'):
            centroid(flat, 1)

    def test_refusals(self):
        bent = model_in(listing([(0, 0, 0), (4, 0, 1), (4, 4, 0), (0, 4, 0)], [[(1, 2, 3, 4)], [(4, 3, 2, 1)]]))
        for call in (volume, centroid, inertia, surface_area):
            with self.subTest(call.__name__):
                self.assertRaisesRegex(NoPart, 'no solid 7', call, BLOCK, 7)
                self.assertRaisesRegex(Unfit, "isn't flat", call, bent, 1)
        self.assertRaises(NoPart, bounding_box, BLOCK, 2)
        self.assertRaisesRegex(Unfit, "isn't flat", square_area, bent, 1)


class Parts(unittest.TestCase):
    """Areas, lengths and distances."""

    def test_areas(self):
        self.assertEqual([square_area(BLOCK, face) for face in BLOCK.faces], [28 ** 2, 28 ** 2, 8 ** 2, 14 ** 2, 8 ** 2, 14 ** 2])
        self.assertEqual(square_area(TETRAHEDRON, 3), Fraction(6 ** 2 + 10 ** 2 + 15 ** 2, 4))
        self.assertEqual(area(TETRAHEDRON, 3), sqrt(361) / 2)
        self.assertEqual(area(PLATE, 1), 8 * 8 - 4 * 4)
        self.assertRaisesRegex(NoPart, 'no face 9', square_area, BLOCK, 9)

    def test_lengths(self):
        squares = sorted(square_length(TETRAHEDRON, edge) for edge in TETRAHEDRON.edges)
        self.assertEqual(squares, [4, 9, 4 + 9, 25, 4 + 25, 9 + 25])
        self.assertTrue(all(abs(length(TETRAHEDRON, edge) - sqrt(square_length(TETRAHEDRON, edge))) < 1e-15 for edge in TETRAHEDRON.edges))
        long = block((0, 0, 0), (10 ** 9, 1, 1))
        self.assertEqual({length(long, edge) for edge in long.edges}, {1.0, 1e9})
        self.assertRaisesRegex(NoPart, 'no edge 13', square_length, BLOCK, 13)

    def test_distances(self):
        self.assertEqual([square_distance(BLOCK, 1, 2), square_distance(BLOCK, 3, 5), square_distance(BLOCK, 6, 4)], [4, 49, 16])
        self.assertEqual((distance(BLOCK, 1, 2), distance(BLOCK, 1, 1)), (2.0, 0.0))
        self.assertRaisesRegex(NotParallel, "1 and 3 aren't parallel", square_distance, BLOCK, 1, 3)
        self.assertRaises(NoPart, square_distance, BLOCK, 1, 30)


class Sections(unittest.TestCase):
    """The polygons in which planes cut."""

    def test_a_block(self):
        outline, = section(block((0, 0, 0), (2, 3, 4)), 1, (0, 0, 2, -3))
        self.assertEqual(set(outline), {(x, y, Fraction(3, 2)) for x in (0, 2) for y in (0, 3)})
        self.assertEqual(area_vector(outline), (0, 0, 12))
        outline, = section(block((0, 0, 0), (2, 3, 4)), 1, (0, 0, -2, 3))
        self.assertEqual(area_vector(outline), (0, 0, -12))

    def test_a_hexagon(self):
        outline, = section(block((0, 0, 0), (2, 2, 2)), 1, (1, 1, 1, -3))
        self.assertEqual(len(outline), 6)
        self.assertEqual(area_vector(outline), (6, 6, 6))

    def test_holes(self):
        found = section(PLATE, 1, (0, 0, 1, -1))
        self.assertEqual(sorted(area_vector(outline)[2] for outline in found), [-8] * 4 + [128])

    def test_what_lies_in_the_plane(self):
        cube = block((0, 0, 0), (2, 2, 2))
        self.assertEqual([area_vector(outline) for outline in section(cube, 1, (0, 0, 1, -2))], [(0, 0, 8)])
        self.assertEqual(section(cube, 1, (0, 0, 1, 0)), [])
        self.assertEqual([area_vector(outline) for outline in section(cube, 1, (1, -1, 0, 0))], [(8, -8, 0)])
        self.assertEqual([len(outline) for outline in section(cube, 1, (1, 1, 1, -2))], [3])
        self.assertEqual(section(cube, 1, (1, 1, 1, -6)), [])
        self.assertEqual(section(cube, 1, (1, 0, 0, -5)), [])

    def test_the_areas_make_the_volume(self):
        for model in MODELS:
            found = bounding_box(model, 1)
            total = sum(weight * self.area_at(model, place, quarters) for place in range(found.low[2], found.high[2])
                        for quarters, weight in ((1, Fraction(2, 3)), (2, Fraction(-1, 3)), (3, Fraction(2, 3))))
            self.assertEqual(total, volume(model, 1))

    @staticmethod
    def area_at(model, height, quarters):
        """The area of the section of a solid so high, and so many quarters."""
        return Fraction(sum(area_vector(outline)[2] for outline in section(model, 1, (0, 0, 4, -4 * height - quarters)))) / 2

    def test_the_caps_that_gwb_makes_have_its_area(self):
        compared = 0
        for script in examples():
            text = script.read_text() + '\nlist\n'
            model = read_model(self.replies(text))
            for solid, axis in ((solid, axis) for solid in model.solids for axis in range(3)):
                found, way = bounding_box(model, solid), [int(axis == other) for other in range(3)]
                plane = (*way, -(found.low[axis] + found.high[axis]) // 2)
                replied = self.replies(text + 'split {} {} {} {} {} 900000\nlist\n'.format(solid, *plane))
                if split_replies(replied)[-2].lines == ('ok',):
                    compared += 1
                    self.assertEqual(sum(area_vector(outline)[axis] for outline in section(model, solid, plane)),
                                     self.cap(read_model(replied), solid, axis, -plane[3]))
        self.assertGreater(compared, 6)

    @staticmethod
    def cap(model, solid, axis, place):
        """Twice the area of the faces of a solid that lie so far along an axis and look along it."""
        return sum(max(0, normal(model, face)[axis]) for face in model.faces_of(solid)
                   if all(point[axis] == place for point in model.face_points(face)))

    @staticmethod
    def replies(script):
        """What gwb answers to a script."""
        return subprocess.run([program()], input=script.encode(), stdout=subprocess.PIPE, check=False).stdout

    def test_refusals(self):
        self.assertRaises(NoPart, section, BLOCK, 2, (0, 0, 1, -4))
        self.assertRaises(ValueError, section, BLOCK, 1, (0, 0, 0, -4))
