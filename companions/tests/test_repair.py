"""What --repair mends, and that each is counted."""

from fractions import Fraction

from support import box
from test_import import SIDES, TETRAHEDRON, InFiles, off, volumes

from gwb.formats.importing import read_file
from gwb.formats.mesh import mesh_of
from gwb.scripts.inversion import script_of

QUADS = [face[0] for face in box((0, 0, 0), (4, 4, 4), 0)[1]]


class Repairs(InFiles):
    """Each kind of harm."""

    def mended(self, data, *said, volume, **words):
        found = read_file(self.file(data), repair=True, **words)
        self.assertEqual((found.said, found.wrong), (list(said), []))
        self.assertEqual(volumes(found.model), [6 * part for part in volume])
        self.accepted(found.model)
        mesh_of(found.model)
        return found.model

    def test_what_is_whole_stays_as_it_is(self):
        data = off(box((0, 0, 0), (4, 4, 4), 0)[0], QUADS)
        self.assertEqual(script_of(self.mended(data, volume=[64])), script_of(self.read(data)))

    def test_faces_that_rounding_bent(self):
        points = [(0, 0, 0), (10, 0, 0), (10, 10, 0), (0, 10, 0), ('0.3', '0.3', '4.4'), ('9.6', '0.2', '5.4'), ('9.8', '9.9', '6.6'), ('0.1', '10.4', '5.4')]
        data = off(points, QUADS)
        bent = read_file(self.file(data), rounded=True)
        self.assertEqual(len(bent.wrong), 1)
        self.assertTrue(bent.wrong[0].startswith("face 2 isn't flat"), bent.wrong)
        model = self.mended(data, '1 face bent, cut into triangles', volume=[Fraction(1550, 3)], rounded=True)
        self.assertEqual(len(model.faces), 7)

    def test_faces_without_an_area(self):
        """A triangle on a line fills a gap between two faces that lie beside it."""
        points = [*TETRAHEDRON, (3, 0, 0)]
        sides = [(0, 2, 1), (0, 4, 3), (4, 1, 3), *SIDES[2:], (0, 1, 4)]
        data = off(points, sides)
        flat = read_file(self.file(data))
        self.assertEqual(flat.wrong, ['face 5 has no area (--repair mends what can be mended)'])
        model = self.mended(data, '1 face without an area, dropped', volume=[36])
        self.assertEqual(len(model.faces), 4)

    def test_faces_without_an_area_that_lie_on_each_other(self):
        """Two triangles on one line, between the points of an edge and one amid it."""
        points = [*TETRAHEDRON, (3, 0, 0)]
        data = off(points, [*SIDES, (0, 1, 4), (1, 0, 4)])
        self.refuse('edge of 4 faces', data)
        self.mended(data, '2 faces without an area, dropped', volume=[36])

    def test_faces_that_are_turned(self):
        for turned in range(4):
            sides = [side[::-1] if place == turned else side for place, side in enumerate(SIDES)]
            self.refuse('face that turns', off(TETRAHEDRON, sides))
            self.mended(off(TETRAHEDRON, sides), '1 face turned', volume=[36])
        inside_out = [side[::-1] for side in SIDES]
        self.mended(off(TETRAHEDRON, [inside_out[0], SIDES[1], *inside_out[2:]]), '1 face turned', volume=[36])

    def test_faces_that_are_there_twice(self):
        a, b, c = SIDES[0]
        self.refuse('edge of 3 faces', off(TETRAHEDRON, [*SIDES, (b, c, a)]))
        self.mended(off(TETRAHEDRON, [*SIDES, (b, c, a)]), '1 face there twice, left out once', volume=[36])
        self.mended(off(TETRAHEDRON, SIDES * 2), '4 faces there twice, left out once', volume=[36])

    def test_several_at_once(self):
        sides = [SIDES[0][::-1], *SIDES[1:], SIDES[2]]
        self.mended(off(TETRAHEDRON, sides), '1 face there twice, left out once', '1 face turned', volume=[36])

    def test_what_it_does_not_mend(self):
        self.refuse('open edge', off(TETRAHEDRON, SIDES[:3]), repair=True)
        self.refuse('edge of 3 faces', off([*TETRAHEDRON, (9, 9, 9)], [*SIDES, (0, 1, 4)]), repair=True)
        crossed = [*QUADS[:1], (4, 6, 5, 7), *QUADS[2:]]
        points = box((0, 0, 0), (4, 4, 4), 0)[0]
        points[6] = (4, 4, 5)
        self.refuse("polygon 2 is bent and can't be cut into triangles", off(points, crossed), repair=True)

    def test_a_surface_with_one_side(self):
        points = [(0, 0, 0), (6, 0, 0), (6, 6, 0), (0, 6, 0), (3, 3, 4), (3, 2, 6)]
        plane = ['014', '015', '023', '025', '034', '123', '124', '135', '245', '345']
        self.refuse('face that turns', off(points, [tuple(map(int, face)) for face in plane]), repair=True)
