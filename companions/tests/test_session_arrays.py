"""What a workbench holds as arrays, beside what its parts say."""

import unittest

from support import opened, step_of

from gwb import Ended, Refused


class Arrays(unittest.TestCase):
    """A block with a hole through it, and another one."""

    def setUp(self):
        self.bench = opened(self, step_of(self, 'test_a_solid_of_arrays', 'test_triangles', 'test_vertices'))
        block = self.bench.block((0, 0, 0), (9, 9, 9))
        self.bench.hole(block.top, [(3, 3, 9), (6, 3, 9), (6, 6, 9), (3, 6, 9)])
        self.bench.block((-40, 0, 0), (1, 2, 3), solid=7)
        self.bench.delete(self.bench.copy(7, move=(90, 0, 0)).solid)

    def test_vertices(self):
        rows = self.bench.vertices_array()
        self.assertEqual((rows.format, rows.shape, rows[0, 0]), ('q', (24, 4), 1))
        self.assertEqual(rows.tolist(), [[vertex.number, *vertex.point] for vertex in self.bench.vertices()])

    def test_half_edges(self):
        for solid, faces in ((None, self.bench.faces()), (1, self.bench.faces(solid=1)), (7, self.bench.faces(solid=7))):
            rows = self.bench.half_edges_array(solid)
            self.assertEqual((rows.format, rows.shape[1]), ('I', 5))
            wanted = {}
            for face in faces:
                for loop in face.loops:
                    codes = [2 * abs(half) + (half < 0) for half in loop.half_edges]
                    for half, code, after in zip(loop.half_edges, codes, codes[1:] + codes[:1]):
                        ends = self.bench.edge(abs(half)).vertices
                        wanted[code] = [code, ends[half < 0].number, after, loop.number, face.number]
            self.assertEqual({row[0]: row for row in rows.tolist()}, wanted)
            self.assertEqual(len(wanted), len(rows))

    def test_triangles(self):
        points = {row[0]: row[1:] for row in self.bench.vertices_array().tolist()}
        for solid, count in ((None, 44), (1, 32), (7, 12)):
            rows = self.bench.triangles_array(solid).tolist()
            self.assertEqual(len(rows), count)
            self.assertEqual(sum(_six_volume(*(points[vertex] for vertex in row[1:])) for row in rows),
                             sum(6 * self.bench.volume(number) for number in ((1, 7) if solid is None else (solid,))))

    def test_they_stay_what_they_are(self):
        rows = self.bench.vertices_array()
        before = rows.tolist()
        self.bench.move(1, (5, 5, 5))
        self.assertEqual(rows.tolist(), before)

    def test_a_solid_of_arrays(self):
        tetrahedron = self.bench.polyhedron([(0, 0, 0), (6, 0, 0), (0, 6, 0), (0, 0, 6)], [(0, 2, 1), (0, 1, 3), (1, 2, 3), (0, 3, 2)])
        self.assertEqual((self.bench.volume(tetrahedron), tetrahedron.solid), (36, 9))
        self.assertEqual([self.bench.vertex(vertex).point for vertex in tetrahedron.vertices], [(0, 0, 0), (6, 0, 0), (0, 6, 0), (0, 0, 6)])
        self.assertEqual([self.bench.face(face).normal for face in tetrahedron.faces], [(0, 0, -1), (0, -1, 0), (1, 1, 1), (-1, 0, 0)])
        self.bench.undo()
        places = {row[0]: place for place, row in enumerate(self.bench.vertices_array().tolist())}
        triangles = [[places[vertex] for vertex in row[1:]] for row in self.bench.triangles_array().tolist()]
        made = self.bench.polyhedron([row[1:] for row in self.bench.vertices_array().tolist()], triangles, solid=50)
        self.assertEqual(self.bench.volume(made), self.bench.volume(1) + self.bench.volume(7))
        self.bench.undo()
        self.bench.redo()
        self.assertEqual(self.bench.count(made).faces, 44)

    def test_what_is_no_solid(self):
        points, faces = [(0, 0, 0), (6, 0, 0), (0, 6, 0), (0, 0, 6)], [(0, 2, 1), (0, 1, 3), (1, 2, 3), (0, 3, 2)]
        before = self.bench.listing()
        for name, value, wrong, solid in (('NotClosed', 1, faces[:3], 50), ('NotClosed', 4, [*faces[:3], (0, 2, 3)], 50), ('FewPoints', 2, [(0, 1), *faces], 50),
                                          ('NotClosed', 5, [*faces, (0, 2, 1)], 50), ('NotClosed', 1, [(0, 0, 1), *faces], 50), ('SolidTaken', 1, faces, 1),
                                          ('NumberRange', 1_000_001, faces, 1_000_001)):
            with self.assertRaises(Refused) as caught:
                self.bench.polyhedron(points, wrong, solid=solid)
            self.assertEqual((caught.exception.name, caught.exception.value), (name, value), wrong)
        with self.assertRaises(Refused) as caught:
            self.bench.polyhedron([*points[:3], (0, 0, 10 ** 9 + 1)], faces)
        self.assertEqual((caught.exception.name, caught.exception.value), ('PointRange', 4))
        for more in ([*points, (9, 9, 9)], [*points, (-6, 0, 0), (0, -6, 0), (0, 0, -6)]):
            other = [] if len(more) == 5 else [(0, 4, 5), (0, 6, 4), (4, 6, 5), (0, 5, 6)]
            with self.assertRaisesRegex(ValueError, '^polyhedron: what is given is no solid'):
                self.bench.polyhedron(more, [*faces, *other])
        self.assertEqual(self.bench.listing(), before)

    def test_of_nothing(self):
        self.bench.delete(1)
        self.bench.delete(7)
        for rows in (self.bench.vertices_array(), self.bench.half_edges_array(), self.bench.triangles_array()):
            self.assertEqual((len(rows), rows.tolist()), (0, []))
        for read in (self.bench.half_edges_array, self.bench.triangles_array):
            with self.assertRaisesRegex(Refused, 'there is no solid 1'):
                read(1)
        self.bench.close()
        self.assertRaises(Ended, self.bench.vertices_array)


def _six_volume(a, b, c):
    return (a[0] * (b[1] * c[2] - b[2] * c[1]) + a[1] * (b[2] * c[0] - b[0] * c[2]) + a[2] * (b[0] * c[1] - b[1] * c[0]))
