"""`check` finds planted slips, each with the numbers concerned, and nothing where there is none."""

import sys
import tempfile
import unittest
from math import cos, sin, tau
from pathlib import Path
from random import Random
from unittest.mock import patch

from support import box, examples, lamina, listing, model_in, run, shells, turned

from gwb.checks import check as checking
from gwb.checks import face_checks, near_pairs
from gwb.checks.check import check
from gwb.checks.patches import Patches, patches
from gwb.checks.simple_paths import is_simple
from gwb.checks.star_solids import is_star
from gwb.geometry.flat_face import FlatFace
from gwb.geometry.measures import normal
from gwb.protocol.listing import read_model

SQUARE = [(0, 0), (12, 0), (12, 12), (0, 12)]


class Check(unittest.TestCase):
    """One test for each planted slip."""

    def found(self, text):
        return [str(finding) for finding in check(model_in(text)).findings]

    def test_ring_that_runs_the_wrong_way(self):
        self.assertIn('wrong-way: ring 2 of face 1 runs the same way round as its outer loop 1',
                      self.found(lamina(SQUARE, [(2, 2), (4, 2), (2, 4)])))

    def test_ring_outside_its_face(self):
        self.assertIn('outside: ring 2 of face 1 lies outside its outer loop 1, at vertex 5',
                      self.found(lamina(SQUARE, [(22, 2), (22, 4), (24, 2)])))

    def test_ring_within_a_ring(self):
        self.assertIn('outside: ring 3 of face 1 lies inside ring 2, at vertex 9',
                      self.found(lamina(SQUARE, [(1, 1), (1, 9), (9, 9), (9, 1)], [(2, 2), (2, 4), (4, 2)])))

    def test_ring_that_crosses_the_outer_loop(self):
        found = self.found(lamina(SQUARE, [(10, 2), (10, 4), (14, 3)]))
        self.assertIn('outside: ring 2 of face 1 lies outside its outer loop 1, at vertex 7', found)
        self.assertIn('crossing: edges 2 and 6 of face 1 cross', found)

    def test_outer_loop_that_crosses_itself(self):
        self.assertIn('crossing: edges 2 and 4 of face 1 cross', self.found(lamina([(0, 0), (9, 0), (0, 6), (9, 9)])))

    def test_outer_loop_that_crosses_itself_and_has_no_area(self):
        self.assertEqual(self.found(lamina([(0, 0), (4, 0), (0, 4), (4, 4)])), ['crossing: edges 2 and 4 of face 1 cross'])

    def test_loop_that_touches_itself(self):
        self.assertIn('touching: vertex 4 lies on edge 1', self.found(lamina([(0, 0), (8, 0), (8, 4), (4, 0), (0, 4)])))

    def test_bent_face(self):
        points, faces = box((0, 0, 0), (4, 4, 4))
        points[6] = (4, 4, 5)
        self.assertEqual([finding.split(' ')[0] for finding in self.found(listing(points, faces))], ['bent:'])

    def test_solid_inside_out(self):
        self.assertEqual(self.found(shells(((0, 0, 0), (4, 4, 4)), inside_out=[0])),
                         ['inside-out: the shell of face 1 of solid 1 is inside out'])

    def test_hollow_outside_of_its_solid(self):
        self.assertEqual(self.found(shells(((0, 0, 0), (4, 4, 4)), ((6, 0, 0), (8, 2, 2)), inside_out=[1])),
                         ['inside-out: the shell of face 7 of solid 1 is inside out'])

    def test_shell_within_material(self):
        self.assertEqual(self.found(shells(((0, 0, 0), (9, 9, 9)), ((2, 2, 2), (4, 4, 4)))),
                         ['meeting: the shell of face 7 of solid 1 lies in the material of another'])

    def test_vertices_at_one_point(self):
        self.assertEqual(self.found(shells(((0, 0, 0), (4, 4, 4)), ((4, 4, 4), (6, 6, 6)))),
                         ['touching: vertices 7 and 9 of solid 1 lie at one point'])

    def test_vertices_on_an_edge(self):
        self.assertEqual(self.found(shells(((0, 0, 0), (4, 4, 4)), ((2, -2, 4), (3, 0, 6)))),
                         ['touching: vertex 11 lies on edge 5', 'touching: vertex 12 lies on edge 5'])

    def test_vertex_on_a_face(self):
        points, faces = box((0, 0, 0), (4, 4, 4))
        tip = [(2, 2, 4), (1, 1, 8), (3, 1, 8), (2, 3, 8)]
        tent = [[(9, 11, 10)], [(9, 12, 11)], [(9, 10, 12)], [(10, 11, 12)]]
        self.assertEqual(self.found(listing(points + tip, faces + tent)), ['touching: vertex 9 lies on face 2'])

    def test_edges_through_a_face(self):
        self.assertEqual(self.found(shells(((0, 0, 0), (4, 4, 4)), ((1, 1, 2), (2, 2, 9)))),
                         [f'meeting: edge {edge} passes through face 2' for edge in (21, 22, 23, 24)] +
                         ['meeting: the shell of face 7 of solid 1 lies in the material of another'])

    def test_edges_that_cross(self):
        found = self.found(shells(((0, 0, 0), (4, 4, 4)), ((1, -1, 4), (2, 3, 6))))
        self.assertEqual(found[:2], ['meeting: edges 5 and 13 cross', 'meeting: edges 5 and 15 cross'])

    def test_edges_along_a_face(self):
        found = self.found(shells(((0, 0, 0), (4, 4, 4)), ((-1, 1, 4), (5, 2, 6))))
        self.assertEqual([finding for finding in found if 'runs along' in finding],
                         ['touching: edge 14 runs along face 2', 'touching: edge 16 runs along face 2',
                          'touching: edge 6 runs along face 7', 'touching: edge 8 runs along face 7'])

    def test_faces_back_to_back(self):
        self.assertIn('touching: faces 2 and 7 lie on each other',
                      self.found(shells(((0, 0, 0), (4, 4, 4)), ((0, 0, 4), (4, 4, 6)))))

    def test_faces_on_each_other(self):
        self.assertIn('meeting: faces 1 and 7 lie on each other',
                      self.found(shells(((0, 0, 0), (4, 4, 4)), ((1, 1, 0), (2, 2, 2)))))

    def test_nothing(self):
        for text in (lamina(SQUARE), lamina(SQUARE, [(2, 2), (2, 4), (4, 2)]),
                     shells(((0, 0, 0), (4, 4, 4))),
                     shells(((0, 0, 0), (9, 9, 9)), ((2, 2, 2), (4, 4, 4)), inside_out=[1]),
                     shells(((0, 0, 0), (9, 9, 9)), ((1, 1, 1), (8, 8, 8)), ((2, 2, 2), (4, 4, 4)), inside_out=[1]),
                     shells(((0, 0, 0), (4, 4, 4)), ((6, 0, 0), (8, 2, 2)))):
            self.assertEqual(self.found(text), [])

    def test_the_examples(self):
        for script in examples():
            with self.subTest(script.stem):
                findings = check(read_model(script.with_suffix('.expected').read_bytes())).findings
                self.assertEqual(findings, [])


def ring(around, across, radius, thick, at=(0, 0, 0), first=1):
    """The points of a ring made of triangles, numbered from first, and its faces."""
    def vertex(i, j):
        return i % around * across + j % across + first

    ways = [(tau * i / around, tau * j / across) for i in range(around) for j in range(across)]
    points = [(round((radius + thick * cos(b)) * cos(a)) + at[0], round((radius + thick * cos(b)) * sin(a)) + at[1], round(thick * sin(b)) + at[2])
              for a, b in ways]
    corners = [(vertex(i, j), vertex(i + 1, j), vertex(i + 1, j + 1), vertex(i, j + 1)) for i in range(around) for j in range(across)]
    return points, [[three] for a, b, c, d in corners for three in ((a, b, c), (a, c, d))]


def hill(random, size, height):
    """A listing of a hill over a square, some of its faces bent, on a bottom of one face."""
    def vertex(x, y):
        return x * (size + 1) + y + 1

    def shift(x, y):
        return random.randint(-1, 1) if 0 < x < size and 0 < y < size else 0

    steps = range(size)
    points = [(2 * x + shift(x, y), 2 * y + shift(x, y), height * abs(shift(x, y))) for x in range(size + 1) for y in range(size + 1)]
    corners = [(vertex(x, y), vertex(x + 1, y), vertex(x + 1, y + 1), vertex(x, y + 1)) for x in steps for y in steps]
    faces = [face for a, b, c, d in corners for face in ([[(a, b, c)], [(a, c, d)]] if random.random() < 0.7 else [[(a, b, c, d)]])]
    rim = [*(vertex(i, 0) for i in steps), *(vertex(size, i) for i in steps), *(vertex(size - i, size) for i in steps), *(vertex(0, size - i) for i in steps)]
    return listing(points, [*faces, [tuple(reversed(rim))]])


def random_boxes(random):
    """A listing of some boxes, of rectangles or triangles, that meet each other, some inside out or bent."""
    points, faces = [], []
    for _ in range(random.randint(1, 4)):
        low = [random.randint(0, 5) for _ in 'xyz']
        more, others = box(low, [part + random.randint(1, 5) for part in low], len(points) + 1)
        if random.random() < 0.5:
            others = [[(cycle[0], *cycle[i:i + 2])] for (cycle,) in others for i in (1, 2)]
        if random.random() < 0.2:
            more[random.randrange(8)] = tuple(random.randint(0, 9) for _ in 'xyz')
        points += more
        faces += turned(others) if random.random() < 0.2 else others
    return listing(points, faces)


def alone(_model, normals, _convex):
    """Patches of one face each, none of which is taken for convex."""
    return Patches({face: face for face in normals}, dict.fromkeys(normals, False))


def spindle(count, rounds=1, far=lambda place: 1_000_000, first=1):
    """The points of a double cone, whose rim goes so many times round, and its faces. `far` is how far out each corner of the rim lies."""
    ways = [tau * rounds * place / count for place in range(count)]
    points = [(round(far(place) * cos(way)), round(far(place) * sin(way)), 0) for place, way in enumerate(ways)]
    rim = [(first + place, first + (place + 1) % count) for place in range(count)]
    up, down = first + count, first + count + 1
    return [*points, (0, 0, 1_000_000), (0, 0, -1_000_000)], [face for a, b in rim for face in ([(a, b, up)], [(b, a, down)])]


def above_rim(rim, top):
    """The points of a double cone over a rim in the plane z = 0, and its faces."""
    points, faces = spindle(len(rim))
    return [*((x, y, 0) for x, y in rim), (0, 0, top), (0, 0, -top)], faces


def prism(outline, height):
    """The points of a prism over an outline, and its faces."""
    count = len(outline)
    sides = [[(place + 1, (place + 1) % count + 1, count + (place + 1) % count + 1, count + place + 1)] for place in range(count)]
    return ([(x, y, z) for z in (0, height) for x, y in outline],
            [[tuple(range(count, 0, -1))], [tuple(range(count + 1, 2 * count + 1))], *sides])


def cone(count):
    """The points of a cone on a polygon of so many sides, some of which turn inwards, and its faces."""
    points, faces = spindle(count)
    return points[:-1], [*faces[::2], [tuple(range(count, 0, -1))]]


def cylinder(count):
    """The points of a cylinder of triangles, with tops that are fans round one corner, and its faces."""
    rim = spindle(count)[0][:count]
    low, high = [place + 1 for place in range(count)], [place + 1 + count for place in range(count)]
    tops = [face for i in range(1, count - 1) for face in ([(low[0], low[i + 1], low[i])], [(high[0], high[i], high[i + 1])])]
    walls = [face for i in range(count) for face in ([(low[i - 1], low[i], high[i])], [(low[i - 1], high[i], high[i - 1])])]
    return rim + [(x, y, 1_000_000) for x, y, _ in rim], tops + walls


def gear(count):
    """The points of a gear with so many corners in each of its two outlines, and its faces."""
    points = spindle(count, 1, lambda place: (1_000_000, 1_000_000, 800_000, 800_000)[place % 4])[0][:count]
    return prism([(x, y) for x, y, _ in points], 100_000)


def washer(count):
    """The points of a washer whose outlines have so many corners, and its faces, two of which have a ring."""
    points, (bottom, top, *walls) = prism([(x, y) for x, y, _ in spindle(count)[0][:count]], 100_000)
    inner, (floor, roof, *sides) = prism([(2 * x // 5, 2 * y // 5) for x, y, _ in points[:count]], 100_000)
    floor, roof, *sides = [[tuple(2 * count + vertex for vertex in cycle) for cycle in face] for face in turned([floor, roof, *sides])]
    return points + inner, [bottom + floor, top + roof, *walls, *sides]


def calls_of(work):
    """How many calls of functions, and of built-in ones, something makes."""
    count = 0

    def seen(_frame, event, _argument):
        nonlocal count
        count += event in ('call', 'c_call')
    sys.setprofile(seen)
    try:
        work()
    finally:
        sys.setprofile(None)
    return count


class Stars(unittest.TestCase):
    """Solids whose faces are all seen from one point within aren't looked at by pairs."""

    def is_star(self, points, faces):
        model = model_in(listing(points, faces))
        found = is_star(model, 1, {face: normal(model, face) for face in model.faces})
        if found:
            with patch.object(checking, 'is_star', lambda *_: False):
                self.assertEqual(check(model).findings, [])
        return found

    def test_which_are(self):
        low = spindle(12, 1, lambda place: (1_000_000, 300_000)[place % 2])
        square = box((0, 0, 0), (4, 4, 4))
        angle = [(0, 0), (2, 0), (2, 1), (1, 1), (1, 2), (0, 2)]
        twice = [(4, -2), (4, 2), (0, 5), (-5, 0), (0, -5), (6, 0), (0, 6), (-6, 0), (0, -6)]
        for name, solid, star in (
                ('a block', square, True), ('a spindle', spindle(12), True), ('with a rim in and out', low, True), ('a cone', cone(300), True),
                ('a cylinder', cylinder(30), True), ('a block inside out', (square[0], turned(square[1])), False),
                ('a prism of five sides', prism(angle[:3] + angle[4:], 3), True), ('an angle, with the eye in planes of its faces', prism(angle, 3), False),
                ('a rim twice round, with an edge before the middle', above_rim(twice, 3), False), ('a rim twice round', spindle(11, 2), False),
                ('a rim three times round', spindle(10, 3), False), ('a ring', ring(9, 7, 40, 20), False),
                ('two blocks', (square[0] + box((9, 0, 0), (12, 4, 4))[0], square[1] + box((9, 0, 0), (12, 4, 4), 9)[1]), False),
                ('a bent face', ([*square[0][:6], (4, 4, 5), square[0][7]], square[1]), False),
                ('a lamina', ([(0, 0, 0), (4, 0, 0), (0, 4, 0)], [[(1, 2, 3)], [(3, 2, 1)]]), False)):
            with self.subTest(name):
                self.assertEqual(self.is_star(*solid), star)

    def test_random_ones(self):
        random, found = Random(3), []
        for _ in range(80):
            least = random.randint(1, 20)
            found.append(self.is_star(*spindle(random.randint(3, 12), random.choice((1, 1, 1, 2)), lambda _, least=least: random.randint(least, 20))))
            points, faces = ring(4, 3, 9, 3)
            found.append(self.is_star([tuple(part + random.randint(-2, 2) for part in point) for point in points], faces))
        self.assertGreater(min(found.count(True), found.count(False)), 20)

    def test_an_outline_that_meets_itself(self):
        points = [(0, 0, 0), (8, 0, 0), (8, 8, 0), (4, 0, 0), (0, 8, 0), (4, 3, 9)]
        rim = [1, 2, 3, 4, 5]
        faces = [[tuple(reversed(rim))], *([(rim[place - 1], rim[place], 6)] for place in range(5))]
        self.assertFalse(self.is_star(points, faces))
        self.assertIn('touching: vertex 4 lies on edge 4', [str(finding) for finding in check(model_in(listing(points, faces))).findings])

    def test_their_work_grows_as_their_faces(self):
        for solid in (cone, cylinder, gear):
            few, many = (model_in(listing(*solid(count))) for count in (150, 600))
            with self.subTest(solid.__name__):
                self.assertLess(calls_of(lambda model=many: check(model)), 5 * calls_of(lambda model=few: check(model)))


class Rings(unittest.TestCase):
    """Rings of many corners in outlines of many corners."""

    def test_their_work_grows_as_their_corners(self):
        few, many = (model_in(listing(*washer(count))) for count in (100, 400))
        self.assertLess(calls_of(lambda: check(many)), 6 * calls_of(lambda: check(few)))
        self.assertEqual(check(many).findings, [])

    def test_which_lie_outside(self):
        random, found = Random(8), []
        for _ in range(40):
            outer = spindle(40, 1, lambda _: random.randint(60, 99))[0][:40]
            shift, inner = random.randint(-70, 70), spindle(30, 1, lambda _: random.randint(20, 40))[0][:30]
            text = lamina([(x, y) for x, y, _ in outer], [(x + shift, y) for x, y, _ in reversed(inner)])
            told = [str(finding) for finding in check(model_in(text)).findings if finding.kind == 'outside']
            with patch.object(face_checks, '_FEW_SIDES', 99):
                self.assertEqual([str(finding) for finding in check(model_in(text)).findings if finding.kind == 'outside'], told)
            found.append(bool(told))
        self.assertGreater(min(found.count(True), found.count(False)), 8)


class PatchesOfFaces(unittest.TestCase):
    """What is left out because it lies in one patch, and what isn't."""

    def test_what_is_found_is_the_same_without_patches_or_parting_lines(self):
        random, kinds = Random(5), set()
        for place in range(60):
            points, faces = ring(random.randint(5, 9), random.randint(5, 7), random.randint(9, 40), random.randint(3, 30))
            more, others = ring(5, 6, 20, 9, [random.randint(-30, 30) for _ in 'xyz'], len(points) + 1)
            text = (random_boxes(random), hill(random, random.randint(3, 5), random.choice((1, 3, 9))), listing(points, faces),
                    listing(points + more, faces + others), lamina([(random.randint(0, 9), random.randint(0, 9)) for _ in range(7)]))[place % 5]
            found = check(model_in(text)).findings
            with patch.object(near_pairs, 'patches', alone):
                self.assertEqual(check(model_in(text)).findings, found, text)
            with patch.object(FlatFace, 'is_apart_from', lambda *_: False):
                self.assertEqual(check(model_in(text)).findings, found, text)
            kinds |= {finding.kind for finding in found}
        self.assertEqual(kinds, {'bent', 'crossing', 'inside-out', 'meeting', 'touching'})

    def test_a_ring_is_of_few_patches(self):
        model = model_in(listing(*ring(60, 60, 1_000_000, 400_000)))
        normals = {face: normal(model, face) for face in model.faces}
        self.assertLess(len(set(patches(model, normals).patch_of.values())), 30)
        self.assertLess(len(near_pairs.near_pairs(model, normals).faces), len(model.faces) * 3 / 4)

    def test_a_sheet_of_many_squares_is_of_one_patch(self):
        size = 100
        squares = [[(x * (size + 1) + y + 1, (x + 1) * (size + 1) + y + 1, (x + 1) * (size + 1) + y + 2, x * (size + 1) + y + 2)]
                   for x in range(size) for y in range(size)]
        rim = [*range(1, size + 2), *((x + 1) * (size + 1) for x in range(1, size + 1)), *range((size + 1) ** 2 - 1, size * (size + 1), -1),
               *(x * (size + 1) + 1 for x in range(size - 1, 0, -1))]
        model = model_in(listing([(x, y, 0) for x in range(size + 1) for y in range(size + 1)], [*squares, [tuple(rim)]]))
        found = patches(model, {face: normal(model, face) for face in model.faces}).patch_of
        self.assertEqual((len(model.faces), len(set(found.values()))), (size ** 2 + 1, 2))

    def test_simple_paths(self):
        square = [(0, 0), (4, 0), (4, 4), (0, 4)]
        for name, path, simple in (
                ('a square', square, True), ('clockwise', square[::-1], True), ('a corner amid a side', [(0, 0), (2, 0), *square[1:]], True),
                ('a spike', [(0, 0), (6, 0), *square[1:]], False), ('sides that cross', [(0, 0), (4, 4), (4, 0), (0, 4)], False),
                ('a corner twice', [(0, 0), (4, 0), (2, 2), (4, 4), (0, 4), (2, 2)], False),
                ('a corner on a side', [(0, 0), (4, 0), (4, 4), (2, 0), (0, 4)], False), ('sides on each other', [(0, 0), (4, 0), (4, 2), (3, 2), (3, 0), (1, 0), (1, 2)], False),
                ('a crossing of far sides', [(0, 0), (9, 0), (9, 9), (5, -1), (0, 9)], False)):
            with self.subTest(name):
                for start in range(len(path)):
                    turned_path = path[start:] + path[:start]
                    self.assertEqual([is_simple(turned_path), is_simple([(y, x) for x, y in turned_path])], [simple, simple])


class Between(unittest.TestCase):
    """Solids that share room, where it is asked for."""

    def pairs(self, *corners, twist=None):
        points, solids = [], []
        for low, high in corners:
            more, faces = box(low, high, len(points) + 1)
            points += more
            solids.append(faces)
        if twist:
            points = [twist(point) for point in points]
        model = model_in(listing(points, *solids))
        self.assertEqual(check(model).findings, [])
        return [str(finding) for finding in check(model, between=True).findings]

    def test_blocks(self):
        whole, told = ((0, 0, 0), (4, 4, 4)), ['overlapping: solids 1 and 2 share room']
        for name, other, overlap in (
                ('a corner in it', ((2, 2, 2), (6, 6, 6)), True), ('the same', whole, True), ('within', ((1, 1, 1), (3, 3, 3)), True),
                ('within, at a face', ((1, 1, 0), (3, 3, 2)), True), ('shifted along an axis', ((2, 0, 0), (6, 4, 4)), True),
                ('a thin slab whose edges lie on faces', ((1, 0, -90), (2, 4, 900)), True), ('a bar through it', ((1, 1, -5), (2, 2, 9)), True),
                ('a half of it', ((0, 0, 0), (2, 4, 4)), True), ('beside it', ((4, 0, 0), (6, 4, 4)), False), ('at an edge', ((4, 4, 0), (6, 6, 4)), False),
                ('at a corner', ((4, 4, 4), (6, 6, 6)), False), ('a part of a face', ((4, 1, 1), (6, 3, 3)), False), ('apart', ((9, 0, 0), (12, 4, 4)), False)):
            with self.subTest(name):
                for pair in ((whole, other), (other, whole)):
                    self.assertEqual(self.pairs(*pair), told if overlap else [])
                    self.assertEqual(self.pairs(*pair, twist=lambda p: (p[0] + p[1], p[1] + 2 * p[2], p[2] + 3 * p[0])), told if overlap else [])

    def test_which_of_several(self):
        self.assertEqual(self.pairs(((0, 0, 0), (4, 4, 4)), ((4, 0, 0), (8, 4, 4)), ((3, 1, 1), (5, 3, 3))),
                         ['overlapping: solids 1 and 3 share room', 'overlapping: solids 2 and 3 share room'])

    def test_one_in_the_hollow_of_another(self):
        points, faces = box((0, 0, 0), (9, 9, 9))
        hollow, walls = box((2, 2, 2), (7, 7, 7), 9)
        for low, overlap in ((3, False), (2, False), (1, True)):
            inner, others = box((low, 3, 3), (6, 6, 6), 17)
            found = check(model_in(listing(points + hollow + inner, faces + turned(walls), others)), between=True).findings
            self.assertEqual(len(found), overlap, low)

    def test_a_bent_solid_is_named(self):
        points, faces = box((0, 0, 0), (4, 4, 4))
        points[6] = (4, 4, 5)
        more, others = box((1, 1, 1), (2, 2, 2), 9)
        lines = list(check(model_in(listing(points + more, faces, others)), between=True).lines())
        self.assertIn("not compared with other solids: solid 1: face 2 isn't flat: vertex 7 lies off its plane", [line.replace('vertex 6', 'vertex 7') for line in lines])


class Slivers(unittest.TestCase):
    """Thin faces and solids, where they are asked for."""

    def found(self, points, *solids, most=1000):
        return [str(finding) for finding in check(model_in(listing(points, *solids)), slivers=most).findings if finding.kind == 'sliver']

    def test_a_plate(self):
        points, faces = box((0, 0, 0), (10 ** 6, 10 ** 6, 1))
        told = self.found(points, faces)
        self.assertEqual(told[-1], 'sliver: solid 1 is 1,414,216 times as long as it is thick')
        self.assertEqual(sum(line.startswith('sliver: face ') for line in told), 4)
        self.assertEqual(self.found(*box((0, 0, 0), (100, 100, 1))), [])
        self.assertEqual(self.found(*box((0, 0, 0), (100, 100, 1)), most=100)[-1], 'sliver: solid 1 is 144 times as long as it is thick')

    def test_a_needle(self):
        told = self.found([(0, 0, 0), (1, 0, 0), (0, 1, 0), (0, 0, 10 ** 6)], [[(1, 3, 2)], [(1, 2, 4)], [(2, 3, 4)], [(1, 4, 3)]])
        self.assertEqual(len(told), 4)
        self.assertIn('sliver: face 2 is 1,000,000 times as long as it is wide', told)

    def test_a_cube(self):
        self.assertEqual(self.found(*box((0, 0, 0), (7, 7, 7)), most=6), [])

    def test_the_words(self):
        with tempfile.TemporaryDirectory() as folder:
            path = Path(folder, 'replies')
            path.write_text(listing(*box((0, 0, 0), (10 ** 6, 10 ** 6, 1))))
            self.assertEqual(run('check', str(path)), ('no findings\n', '', 0))
            outcome = run('check', '--slivers', '1000', '--between', str(path))
            self.assertEqual((outcome.status, outcome.out.splitlines()[-1]), (1, '5 findings'))
            for word in ('0', '-1', 'x', '1e3', '9' * 50):
                self.assertEqual(run('check', '--slivers', word, str(path)).status, 2, word)
