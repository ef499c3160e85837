"""Faces that cross or touch, as the library finds them, are those that gwb-check says: on random solids, and on the stored parts."""

import re
import unittest
from collections import Counter
from fractions import Fraction
from random import Random

from support import STEP, library

from gwb import Refused, Workbench
from gwb.checks.findings import MEETING, TOUCHING
from gwb.checks.solid_checks import SolidCheck
from gwb.geometry.flat_face import FlatFace
from gwb.geometry.plane_figures import Place
from gwb.geometry.vectors import cross, dot, subtract

# The eight faces of an octahedron, and two more points that cut one of them in three.
FACES = [(4, 0, 2), (4, 2, 1), (4, 1, 3), (4, 3, 0), (5, 2, 0), (5, 1, 2), (5, 3, 1), (5, 0, 3)]


def solid(random):
    """Points of a closed surface of triangles, on a small grid, and its faces: at first glance it may be anything."""
    points, faces = [tuple(random.randint(0, 5) for _ in range(3)) for _ in range(6)], list(FACES)
    for _ in range(random.randint(0, 3)):
        a, b, c = faces.pop(random.randrange(len(faces)))
        faces += [(a, b, len(points)), (b, c, len(points)), (c, a, len(points))]
        points.append(tuple(random.randint(0, 5) for _ in range(3)))
    return points, faces


def are_plain(points, faces):
    """Whether each face has an area, and no two points are one."""
    across = (cross(subtract(points[b], points[a]), subtract(points[c], points[a])) for a, b, c in faces)
    return len(set(points)) == len(points) and all(map(any, across))


class Crossings(unittest.TestCase):
    """What `crossings` finds."""

    def compare(self, bench, number, outcomes):
        """Whether anything was found."""
        model = bench.listing().only(number)
        found, said = bench.crossings(number), [finding for finding in SolidCheck(model, number).findings() if finding.kind in (MEETING, TOUCHING)]
        self.assertEqual(bool(found), bool(said), (found, said))
        pairs = {(first, second) for first, second, _ in found}
        self.assertEqual([tuple(row[:2]) for row in found], sorted(pairs))
        for first, second, point in found:
            self.try_point(bench, model, first, second, point)
        for finding in said:
            self.try_finding(model, finding.text, pairs, outcomes)
        outcomes['crossed' if found else 'plain'] += 1

    def try_point(self, bench, model, first, second, point):
        """It lies on both faces, and on no edge of both."""
        at = tuple(Fraction(part) / bench.step for part in point)
        for face in (first, second):
            shape = FlatFace(model, face)
            self.assertEqual(shape.height(at), 0)
            self.assertIsNot(shape.locate(at), Place.OUTSIDE)
        shared = {abs(half) for half in model.face_halves(first)} & {abs(half) for half in model.face_halves(second)}
        for edge in shared:
            start, end = (model.vertices[vertex] for vertex in model.edges[edge])
            way, to = subtract(end, start), subtract(at, start)
            self.assertFalse(not any(cross(way, to)) and 0 <= dot(way, to) <= dot(way, way), f'a point of edge {edge}')
        for vertex in set(model.face_vertices(first)) & set(model.face_vertices(second)):
            self.assertNotEqual(model.vertices[vertex], at)

    def try_finding(self, model, text, pairs, outcomes):
        """What passes through a face, or has a vertex in it, is paired with it."""
        numbers = list(map(int, re.findall(r'\d+', text)))
        if 'passes through face' in text:
            near = {model.face_of(numbers[0]), model.face_of(-numbers[0])}
        elif 'lies on face' in text:
            near = {face for face in model.faces if numbers[0] in model.face_vertices(face)}
        else:
            return
        for beside in near:
            self.assertIn(tuple(sorted((beside, numbers[1]))), pairs, text)
        outcomes['pairs'] += len(near)

    def test_random_solids(self):
        random, outcomes = Random(11), Counter()
        for _ in range(300):
            points, faces = solid(random)
            if are_plain(points, faces):
                with Workbench(library(), step=STEP) as bench:
                    self.compare(bench, bench.polyhedron([tuple(Fraction(part) * bench.step for part in point) for point in points], faces).solid, outcomes)
        self.assertGreaterEqual(min(outcomes['crossed'], outcomes['pairs']), 100, outcomes)
        self.assertGreaterEqual(outcomes['plain'], 10, outcomes)

    def test_parts(self):
        """Of two parts with pockets in pockets, bosses on bosses and holes, after each feature."""
        outcomes = Counter()
        with Workbench(library(), step=STEP) as bench:
            for bottom, act in ((0, bench.pocket), (40, bench.boss)):
                block = bench.block((0, 0, bottom), (20, 20, 20))
                face, low, level = block.top, 2, bottom + 20
                for _ in range(3):
                    face = act(face, [(low, low, level), (20 - low, low, level), (20 - low, 20 - low, level), (low, 20 - low, level)], 5).face
                    low, level = low + 2, level + (5 if act == bench.boss else -5)
                    self.compare(bench, block.solid, outcomes)
                bench.hole(face, [(9, 9, level), (11, 9, level), (11, 11, level)])
                self.compare(bench, block.solid, outcomes)
        self.assertEqual(outcomes['plain'], 8)

    def test_two_solids(self):
        for move, is_met in (((2, 0, 0), True), ((4, 0, 0), True), ((4, 4, 4), True), ((5, 0, 0), False), ((1, 1, 1), False)):
            with self.subTest(move=move), Workbench(library(), step=STEP) as bench:
                size = 2 if move == (1, 1, 1) else 4
                one, other = bench.block((0, 0, 0), (4, 4, 4)), bench.block(move, (size,) * 3)
                found = bench.crossings(one, other)
                self.assertEqual((bool(found), bench.crossings(one)), (is_met, []))
                self.assertEqual({tuple(row[:2]) for row in found}, {tuple(row[1::-1]) for row in bench.crossings(other, one)})

    def test_refused(self):
        with Workbench(library(), step=STEP) as bench:
            block = bench.block((0, 0, 0), (4, 4, 4))
            for given in ((9,), (block, 9)):
                with self.assertRaises(Refused) as raised:
                    bench.crossings(*given)
                self.assertEqual((raised.exception.name, raised.exception.value), ('NoSolid', 9))
            with self.assertRaises(ValueError):
                bench.crossings(block, 0)
