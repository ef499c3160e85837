"""DXF: drawings, sections and faces, read back by their codes."""

import io
import math
import unittest
from collections import Counter
from fractions import Fraction

from support import box, listing, model_in, run, turned
from test_import import InFiles

from gwb.drawing.dxf import drawing_dxf, face_dxf, section_dxf
from gwb.errors import Unfit
from gwb.formats.appearance import Appearance, Said

BLOCK = listing(*box((0, 0, 0), (4, 5, 6)))
POINTS, FACES = box((0, 0, 0), (4, 4, 4))
MORE, OTHERS = box((5, 0, 0), (6, 1, 1), 9)
TWO = listing(POINTS + MORE, FACES, OTHERS)


def entities(text):
    """The entities of a file: each its kind, and its values by their codes; vertices are those of the polyline before them."""
    words = text.split('\n')
    pairs = [(int(code), value) for code, value in zip(words[::2], words[1::2])]
    assert text.endswith('0\nEOF\n') and len(words) % 2 == 1
    begin = pairs.index((2, 'ENTITIES'))
    found = []
    for code, value in pairs[begin + 1:-2]:
        if code == 0:
            found.append((value, {}))
        else:
            found[-1][1][code] = value
    return found


def outlines(text):
    """The layer and the corners of each closed polyline."""
    found = []
    for kind, held in entities(text):
        if kind == 'POLYLINE':
            assert held[70] == '1' and held[66] == '1'
            found.append((held[8], []))
        elif kind == 'VERTEX':
            found[-1][1].append((float(held[10]), float(held[20])))
    return found


def layers(text):
    """The layers of the table."""
    words = text.split('\n')
    pairs = list(zip(words[::2], words[1::2]))
    return [pairs[place + 1][1] for place, pair in enumerate(pairs) if pair == ('0', 'LAYER')]


class Drawings(unittest.TestCase):
    """Edges."""

    def test_a_block_from_above(self):
        text = drawing_dxf(model_in(BLOCK), (0, 0, 1))
        lines = [(float(held[10]), float(held[20]), float(held[11]), float(held[21])) for _, held in entities(text)]
        self.assertEqual({frozenset(((a, b), (c, d))) for a, b, c, d in lines},
                         {frozenset(((0, 0), (4, 0))), frozenset(((4, 0), (4, 5))), frozenset(((4, 5), (0, 5))), frozenset(((0, 5), (0, 0)))})
        self.assertIn('$INSUNITS\n70\n4\n', text)

    def test_hidden_lines_have_a_layer(self):
        kinds = Counter(held[8] for _, held in entities(drawing_dxf(model_in(BLOCK), (2, -3, 2))))
        self.assertEqual(kinds, {'VISIBLE': 9, 'HIDDEN': 3})
        self.assertEqual({held[8] for _, held in entities(drawing_dxf(model_in(BLOCK), (2, -3, 2), hidden=False))}, {'VISIBLE'})
        self.assertEqual(layers(drawing_dxf(model_in(BLOCK), (2, -3, 2))), ['HIDDEN', 'SEAM', 'VISIBLE'])

    def test_lengths_are_true(self):
        """A view along a diagonal shortens the edges of a cube alike."""
        for unit in (Fraction(1), Fraction(1, 4)):
            for _, held in entities(drawing_dxf(model_in(listing(*box((0, 0, 0), (6, 6, 6)))), (1, 1, 1), unit=unit)):
                length = math.hypot(float(held[11]) - float(held[10]), float(held[21]) - float(held[20]))
                self.assertAlmostEqual(length, 6 * float(unit) * math.sqrt(2 / 3), places=9)


class Outlines(unittest.TestCase):
    """Sections and faces."""

    def test_a_section(self):
        looks = {('solid', 1): Appearance('Deckel \u00fc.1')}
        text = section_dxf(model_in(TWO), (0, 0, 2, -1), Said(looks, Fraction(1, 2)))
        found = outlines(text)
        self.assertEqual([(layer, sorted(corners)) for layer, corners in found],
                         [('DECKEL___1', [(0, 0), (0, 2), (2, 0), (2, 2)]), ('SOLID_2', [(2.5, 0), (2.5, 0.5), (3, 0), (3, 0.5)])])
        self.assertEqual(layers(text), ['DECKEL___1', 'SOLID_2'])
        self.assertEqual(outlines(section_dxf(model_in(TWO), (0, 0, 1, -9), Said())), [])

    def test_names_that_would_be_one_layer(self):
        looks = {('solid', 1): Appearance('a.b'), ('solid', 2): Appearance('a,b')}
        self.assertEqual(layers(section_dxf(model_in(TWO), (0, 0, 2, -1), Said(looks))), ['A_B__SOLID_1_', 'A_B__SOLID_2_'])

    def test_a_slanted_section_has_its_true_size(self):
        (_, corners), = outlines(section_dxf(model_in(listing(POINTS, FACES)), (1, 1, 0, -4), Said()))
        sides = sorted(math.dist(one, other) for one, other in zip(corners, corners[1:] + corners[:1]))
        self.assertEqual([round(side, 7) for side in sides], [4, 4, round(4 * math.sqrt(2), 7), round(4 * math.sqrt(2), 7)])

    def test_a_face_with_a_ring(self):
        hollow, walls = box((1, 1, 0), (3, 3, 4), 9)
        bottom, top, *sides = turned(walls)
        model = model_in(listing(POINTS + hollow, [FACES[0] + bottom, FACES[1] + top, *FACES[2:], *sides]))
        areas = [sum(a[0] * b[1] - a[1] * b[0] for a, b in zip(corners, corners[1:] + corners[:1])) / 2
                 for _, corners in outlines(face_dxf(model, 2, Said()))]
        self.assertEqual(areas, [16, -4])

    def test_a_bent_face_is_refused(self):
        points, faces = box((0, 0, 0), (4, 4, 4))
        points[6] = (4, 4, 5)
        with self.assertRaisesRegex(Unfit, "face 2 isn't flat"):
            face_dxf(model_in(listing(points, faces)), 2, Said())


class ByEzdxf(unittest.TestCase):
    """What ezdxf reads."""

    def test_it_finds_no_error_and_the_same_outlines(self):
        try:
            import ezdxf
        except ImportError:
            raise unittest.SkipTest('needs ezdxf, which is not installed') from None
        model, looks = model_in(TWO), Said({('solid', 1): Appearance('Deckel \u00fc.1')}, Fraction(1, 3))
        for text in (drawing_dxf(model, (2, -3, 2)), section_dxf(model, (0, 0, 2, -1), looks), section_dxf(model, (1, 1, 1, -4), looks), face_dxf(model, 3, looks)):
            read = ezdxf.read(io.StringIO(text))
            self.assertEqual(read.audit().errors, [])
            found = [(line.dxf.layer, [(x, y) for x, y, _ in line.points()]) for line in read.modelspace().query('POLYLINE')]
            self.assertEqual(found, outlines(text))
            self.assertTrue(all(line.is_closed for line in read.modelspace().query('POLYLINE')))
            self.assertEqual(len(read.modelspace().query('LINE')), sum(kind == 'LINE' for kind, _ in entities(text)))
            self.assertLessEqual(set(layers(text)), {layer.dxf.name for layer in read.layers})


class Program(InFiles):
    """The words of gwb-dxf."""

    def test_each_kind(self):
        path = self.file(BLOCK)
        for words, kinds in (([], {'LINE'}), (['--view', '1', '2', '3'], {'LINE'}), (['--section', '0', '0', '1', '-3'], {'POLYLINE', 'VERTEX', 'SEQEND'}),
                             (['--face', '3'], {'POLYLINE', 'VERTEX', 'SEQEND'})):
            outcome = run('dxf', *words, path)
            self.assertEqual((outcome.status, outcome.err, {kind for kind, _ in entities(outcome.out)}), (0, '', kinds))

    def test_refused_words(self):
        path = self.file(BLOCK)
        for words in (['--view', '0', '0', '0'], ['--section', '0', '0', '0', '1'], ['--section', '0', '0', '1'], ['--face', '1', '--view', '0', '0', '1']):
            self.assertEqual(run('dxf', *words, path).status, 2, words)
        outcome = run('dxf', '--face', '7', path)
        self.assertEqual((outcome.status, outcome.out, outcome.err), (3, '', 'gwb-dxf: there is no face 7\n'))
