"""Pictures: which edges are seen, seams, names, views."""

import re
import unittest
from fractions import Fraction
from itertools import combinations

from support import box, examples, lamina, listing, model_in, plate, run

from gwb.drawing.hidden_lines import Scene
from gwb.drawing.labels import Label, place
from gwb.drawing.svg import picture, svg_text
from gwb.drawing.view import View

BLOCK = listing(*box((0, 0, 0), (4, 4, 4)))
STAND = (2, -3, 2)


def counted(picture):
    """How many lines of each class the picture has."""
    counts = {}
    for name, lines in re.findall(r'<g class="(\w+)".*>\n((?:<line .*\n)*)</g>', picture):
        counts[name] = counts.get(name, 0) + lines.count('<line')
    return counts


def names(picture):
    """The numbers in the picture, as pairs of class and number."""
    return [(kind, int(number)) for kind, number in re.findall(r'<text class="([a-z ]+)".*>(\d+)</text>', picture)]


class Blocks(unittest.TestCase):
    """Simple bodies."""

    def test_a_block_has_nine_visible_edges(self):
        for stand in (STAND, (1, 1, 1), (-5, 2, -3), (100, 1, 1)):
            self.assertEqual(counted(svg_text(model_in(BLOCK), stand))['visible'], 9)

    def test_its_hidden_edges(self):
        self.assertEqual(counted(svg_text(model_in(BLOCK), STAND)), {'hidden': 3, 'visible': 9})
        self.assertEqual(counted(svg_text(model_in(BLOCK), STAND, hidden=False)), {'visible': 9})

    def test_a_view_along_an_axis(self):
        for stand in ((0, 0, 1), (0, 0, -7), (1, 0, 0), (0, -2, 0)):
            self.assertEqual(counted(svg_text(model_in(BLOCK), stand)), {'visible': 8})

    def test_a_block_before_another(self):
        points, faces = box((0, 0, 0), (4, 4, 4))
        more, others = box((1, -4, 1), (3, -2, 3), 9)
        scene = Scene(model_in(listing(points + more, faces, others)), View((0, -1, 0)))
        self.assertEqual([piece.hidden for piece in scene.pieces(1)], [])
        bottom = next(edge for edge, ends in model_in(BLOCK).edges.items() if set(ends) == {1, 2})
        self.assertEqual([piece.hidden for piece in scene.pieces(bottom)], [False])

    def test_where_an_edge_is_hidden_is_exact(self):
        points, faces = box((0, 0, 0), (7, 1, 1))
        more, others = box((1, -4, -1), (3, -2, 5), 9)
        text = listing(points + more, faces, others)
        model = model_in(text)
        edge = next(edge for edge, ends in model.edges.items() if set(ends) == {1, 2})
        pieces = Scene(model, View((0, -1, 0))).pieces(edge)
        ways = sorted(Fraction(x, 7) for x in (1, 3))
        if model.edges[edge] == (2, 1):
            ways = [1 - way for way in reversed(ways)]
        self.assertEqual([piece.hidden for piece in pieces], [False, True, False])
        self.assertEqual([pieces[0].end, pieces[1].end], ways)

    def test_bodies_that_run_through_each_other(self):
        points, faces = box((0, 0, 0), (4, 4, 4))
        more, others = box((1, 1, 2), (2, 2, 9), 9)
        model = model_in(listing(points + more, faces, others))
        edge = next(edge for edge, ends in model.edges.items() if set(ends) == {9, 13})
        height = 2 + 7 * Scene(model, View(STAND)).pieces(edge)[0].end
        self.assertEqual(height if model.edges[edge] == (9, 13) else 11 - height, 4)

    def test_seams(self):
        points, faces = box((0, 0, 0), (4, 4, 4))
        points += [(2, 0, 4), (2, 4, 4)]
        faces[1:2] = [[(5, 9, 10, 8)], [(9, 6, 7, 10)]]
        faces[3], faces[5] = [(1, 2, 6, 9, 5)], [(3, 4, 8, 10, 7)]
        self.assertEqual(counted(svg_text(model_in(listing(points, faces)), STAND))['seam'], 1)

    def test_wires_and_lone_vertices(self):
        wire = 'solid 1\nface 1 1 1\nloop 1 +1 -1\nedge 1 1 2\nvertex 1 0 0 0\nvertex 2 5 0 0\n'
        self.assertEqual(counted(svg_text(model_in(wire), STAND)), {'visible': 1})
        lone = 'solid 1\nface 1 1 1\nloop 1 at 1\nvertex 1 0 0 0\n'
        self.assertIn('<circle', svg_text(model_in(lone), STAND))

    def test_a_plate_with_64_holes(self):
        lines = counted(svg_text(model_in(plate(8)), (0, 0, 1)))
        self.assertEqual(lines, {'visible': 4 + 4 + 2 * 4 * 64})


class Solids(unittest.TestCase):
    """Several solids are told apart."""

    def several(self, count):
        points, solids = [], []
        for place in range(count):
            more, faces = box((3 * place, 0, 0), (3 * place + 2, 2, 2), len(points) + 1)
            points += more
            solids.append(faces)
        return svg_text(model_in(listing(points, *solids)), STAND)

    def colours(self, drawn, name):
        return re.findall(rf'<g class="{name}" style="stroke: (#\w+)', drawn)

    def test_one_has_no_colour(self):
        self.assertNotIn('style="', self.several(1))
        self.assertNotIn('solids', self.several(1))

    def test_each_has_its_colour(self):
        for count in (2, 3, 8):
            drawn = self.several(count)
            self.assertEqual(len(set(self.colours(drawn, 'visible'))), count)
            self.assertEqual(set(self.colours(drawn, 'hidden')), set(self.colours(drawn, 'visible')))
            legend = re.findall(r'<tspan style="fill: (#\w+)">(\d+)</tspan>', drawn)
            self.assertEqual([int(solid) for _, solid in legend], list(range(1, count + 1)))
            self.assertEqual([colour for colour, _ in legend], self.colours(drawn, 'visible'))

    def test_colours_that_are_there_twice_are_not_explained(self):
        self.assertNotIn('solids', self.several(9))
        self.assertGreater(counted(self.several(9))['visible'], 9)

    def test_a_lone_vertex(self):
        text = 'solid 1\nsolid 2\nface 1 1 1\nface 2 2 2\nloop 1 at 1\nloop 2 at 2\nvertex 1 0 0 0\nvertex 2 5 0 0\n'
        self.assertEqual(len(set(re.findall(r'<circle .* style="fill: (#\w+)"', svg_text(model_in(text), STAND)))), 2)


class Names(unittest.TestCase):
    """Numbers in pictures."""

    def test_all_numbers_are_there(self):
        found = names(svg_text(model_in(BLOCK), STAND, names=True))
        for kind, count in (('face', 6), ('edge', 12), ('vertex', 8)):
            numbers = sorted(number for name, number in found if name.split(' ')[0] == kind)
            self.assertEqual(numbers, list(range(1, count + 1)))

    def test_what_is_hidden_is_pale(self):
        found = names(svg_text(model_in(BLOCK), STAND, names=True))
        self.assertEqual([number for name, number in found if name == 'face away'], [1, 5, 6])
        self.assertEqual([number for name, number in found if name == 'vertex away'], [4])
        self.assertEqual(len([number for name, number in found if name == 'edge away']), 3)

    def test_a_lamina(self):
        found = names(svg_text(model_in(lamina([(0, 0), (9, 0), (0, 9)])), (0, 0, 1), names=True))
        self.assertIn(('face', 1), found)
        self.assertIn(('face away', 2), found)


class Places(unittest.TestCase):
    """Numbers that would overlap."""

    def test_they_are_moved_or_left_out(self):
        wanted = [Label('face', number, 0, 0) for number in range(100)]
        placed = place(wanted)
        self.assertEqual(placed.labels[0], wanted[0])
        self.assertGreater(len(placed.labels), 1)
        self.assertEqual(len(placed.labels) + placed.left_out, 100)
        for first, second in combinations(placed.labels, 2):
            self.assertFalse(first.overlaps(second), (first, second))

    def test_those_apart_stay(self):
        wanted = [Label('edge', number, 40 * number, 0) for number in range(100)]
        self.assertEqual(place(wanted), (wanted, 0))

    def test_a_plate_says_how_many_are_left_out(self):
        drawn = picture(model_in(plate(8)), STAND, names=True)
        shown = re.findall(r'<text ', drawn.text)
        model = model_in(plate(8))
        drawable = len(model.faces) + len(model.vertices) + len(model.edges)
        self.assertGreater(drawn.left_out, 0)
        self.assertEqual(len(shown) + drawn.left_out, drawable)
        self.assertLess(picture(model, STAND, names=True, size=4000).left_out, drawn.left_out)

    def test_size(self):
        for size in (100, 600, 3000):
            sides = re.search(r'width="(\d+)" height="(\d+)"', picture(model_in(BLOCK), STAND, size=size).text)
            self.assertEqual(max(map(int, sides.groups())), size)
        for word in ('99', '10001', '-5', 'x', '9' * 400):
            outcome = run('svg', f'--size={word}', '/nowhere')
            self.assertEqual((outcome.status, outcome.out), (2, ''))


class Words(unittest.TestCase):
    """The command line."""

    def test_view_and_solid(self):
        replies = str(next(script for script in examples() if script.stem == 'split_block').with_suffix('.expected'))
        whole, half = run('svg', replies), run('svg', '--solid', '2', replies)
        self.assertEqual((whole.status, half.status), (0, 0))
        self.assertLess(half.out.count('<line'), whole.out.count('<line'))
        self.assertNotEqual(run('svg', '--view', '-2', '3', '1', replies).out, whole.out)
        for view in (('0', '0', '0'), ('1', '2', '9' * 400), ('1', '2'), ('x', 'y', 'z')):
            self.assertEqual(run('svg', '--view', *view, '--', replies).status, 2)
        self.assertIn("'a' is no whole number; three are wanted, as in --view 2 -3 2", run('svg', '--view', 'a', '0', '1', replies).err)
        self.assertEqual(run('svg', '--solid', '9', replies).err, 'gwb-svg: there is no solid 9\n')
