"""What the session says: one cause a message, in words of Python."""

import re
import tempfile
import unittest
from fractions import Fraction
from pathlib import Path

from support import library, opened

from gwb import Faulted, Impossible, MemoryRefused, Refused, Unfit, Workbench
from gwb.protocol.complaints import memory_refused
from gwb.refusals import ADVICE, CAUSES, MISFITS, TEXTS
from gwb.protocol.word_advice import IN_PYTHON


class Messages(unittest.TestCase):
    """Each as it is read."""

    def setUp(self):
        self.bench = opened(self, 1)

    def said(self, kind, give):
        """What an error says, in its first line."""
        with self.assertRaises(kind) as caught:
            give()
        return str(caught.exception).partition('\n')[0]

    def test_sizes(self):
        for sizes, text in (((-1, 2, 3), 'SizeRange: sizes[0] is -1; sizes are above 0'), ((1, 2, 0), 'SizeRange: sizes[2] is 0; sizes are above 0')):
            self.assertEqual(self.said(Refused, lambda sizes=sizes: self.bench.block((0, 0, 0), sizes)), text)
        self.assertEqual(len(self.bench.solids()), 0)

    def test_places_count_from_0(self):
        bench, outline = self.bench, [(100, 0, 0), (110, 0, 0), (110, 10, 0), (100, 10, 1)]
        self.assertEqual(self.said(Impossible, lambda: bench.profile(outline, along=(0, 0, 5))), 'NotInPlane: points[3] lies off the plane of the points before it')
        points, faces = [(0, 0, 0), (9, 0, 0), (0, 9, 0), (0, 0, 9)], [(0, 2, 1), (0, 3, 1), (1, 2, 3), (0, 3, 2)]
        self.assertEqual(self.said(Impossible, lambda: bench.polyhedron(points, faces)),
                         'NotClosed: faces[1] and faces[0] have a side that runs the same way in both: turn one of them')
        self.assertEqual(self.said(Impossible, lambda: bench.polyhedron(points, [*faces[:1], faces[1][::-1], faces[2]])),
                         'NotClosed: a side of faces[0] has no face beyond it')

    def test_what_is_not_there_is_said_alike(self):
        """A command, a feature, a search, a measure and a thing say it with the name first; a copy says whose thing is wanted."""
        bench = self.bench
        block, copy = bench.block((0, 0, 0), (9, 9, 9)), bench.copy(1, move=(20, 0, 0))
        for give in (lambda: bench.volume(7), lambda: bench.kvfs(7), lambda: bench.delete(7), lambda: bench.centroid(7), lambda: bench.faces(solid=7),
                     lambda: bench.off_lattice(7, (1, 0, 0, -1)), lambda: bench.solid(7).faces, lambda: bench.triangles_array(7)):
            self.assertEqual(self.said(Refused, give), 'NoSolid: there is no solid 7')
        for give in (lambda: bench.sweep(77, (0, 0, 1)), lambda: bench.sketch(77), lambda: bench.notch(77, [], 1), lambda: bench.area(77),
                     lambda: bench.edges(between=(1, 77)), lambda: bench.face(77).normal, lambda: bench.label(bench.face(77), 'lid')):
            self.assertEqual(self.said(Refused, give), 'NoFace: there is no face 77')
        self.assertEqual(self.said(Refused, lambda: bench.chamfer(77, 1)), 'NoEdge: there is no edge 77')
        self.assertEqual(self.said(LookupError, lambda: bench.vertex(77).point), 'NoVertex: there is no vertex 77')
        self.assertEqual(self.said(LookupError, lambda: copy.of(bench.face(copy.face(block.top)))), 'NoFace: the original, solid 1, has no face 7')

    def test_a_made_thing_in_the_place_of_a_face(self):
        block = self.bench.block((0, 0, 0), (9, 9, 9))
        self.assertEqual(self.said(TypeError, lambda: self.bench.hole(block, [])), 'face: a face is wanted, not a block; its .top is one')
        self.assertEqual(self.said(TypeError, lambda: self.bench.chamfer(block, 1)), 'edge: an edge is wanted, not a block')

    def test_labels(self):
        self.bench.block((0, 0, 0), (9, 9, 9))
        self.assertEqual(self.said(TypeError, lambda: self.bench.label(1, 'lid')), 'thing: 1 may be a solid or a face: bench.solid(1)')
        for name in ('a\nb', '\x7f', '\x00'):
            self.assertIn('has control characters', self.said(ValueError, lambda name=name: self.bench.label(self.bench.solid(1), name)))
        self.bench.label(self.bench.solid(1), 'Gehäuse ø 3')
        self.assertEqual(self.bench.labels[('solid', 1)].name, 'Gehäuse ø 3')

    def test_a_line_is_an_attribute(self):
        with tempfile.TemporaryDirectory() as folder:
            path = Path(folder) / 'part.gwb'
            path.write_text('blok 1\n')
            for give, kind, line in ((lambda: self.bench.kvfs(7), Refused, 'kvfs 7'), (lambda: self.bench.delete(7), Refused, 'kill_solid'),
                                     (lambda: Workbench.load(path, library()), Faulted, 'blok 1')):
                with self.assertRaises(kind) as caught:
                    give()
                self.assertEqual(caught.exception.line, line)
                self.assertNotIn('refused', str(caught.exception))
        self.assertEqual(str(caught.exception), f'{path}, line 1: BadWord: no command is called `blok`\n    # is block meant?')
        self.assertIsInstance(memory_refused('undo'), MemoryRefused)
        self.assertEqual(memory_refused('undo').line, 'undo')

    def test_names_of_other_programs(self):
        names = set(dir(self.bench))
        for name in IN_PYTHON:
            self.assertNotIn(name, names)
            said = self.said(AttributeError, lambda name=name: getattr(self.bench, name))
            self.assertTrue(said.startswith(f'a workbench has no {name}: '), said)
        self.assertEqual(self.said(AttributeError, lambda: self.bench.nonsense), 'a workbench has no nonsense')

    def test_what_is_told_of_them_is_there(self):
        """Each method that advice names is one."""
        called = {word for text in (*IN_PYTHON.values(), *ADVICE.values()) for word in re.findall(r'\b([a-z_]+)\(', text)}
        self.assertGreater(len(called), 15)
        self.assertEqual([word for word in called if not hasattr(type(self.bench), word) and word != 'polygon'], [])

    def test_advice_names_no_program(self):
        self.bench.block((0, 0, 0), (7, 7, 7))
        with self.assertRaises(Refused) as caught:
            self.bench.split(1, (1, 2, 3, -11))
        self.assertIn('refine(', str(caught.exception))
        self.assertNotIn('--', str(caught.exception))
        self.assertNotIn('gwb-', ' '.join([*ADVICE.values(), *IN_PYTHON.values(), *MISFITS.values()]))

    def test_where_a_union_would_touch_itself(self):
        first, second = self.bench.block((0, 0, 0), (5, 5, 5)), self.bench.block((5, 5, 5), (5, 5, 5))
        with self.assertRaises(Impossible) as caught:
            self.bench.union([first, second])
        kind, number = caught.exception.hit
        self.assertEqual((kind, self.bench.vertex(number).point, caught.exception.point), ('vertex', (5, 5, 5), (5, 5, 5)))
        self.assertEqual(str(caught.exception), f'Meets: solid {first.solid} would touch itself (at vertex {number})')

    def test_a_slot_into_a_bore_says_what_makes_it(self):
        plate = self.bench.block((0, 0, 0), (40, 40, 10))
        self.bench.drill(plate.top, (20, 20, 10), radius=5, sides=16)
        give = lambda: self.bench.slot(plate.top, (20, 20, 10), (20, 30, 10), 6, 2)  # noqa: E731
        with self.assertRaises(Impossible) as caught:
            give()
        factor = caught.exception.value
        self.assertEqual((caught.exception.cause, caught.exception.advice), ('CornerFraction', (f'refine({factor}) makes the step as fine as that',)))
        before = self.bench.volume(plate)
        self.bench.refine(factor)
        give()
        self.assertLess(self.bench.volume(plate), before)

    def test_a_file_off_the_lattice(self):
        corners = [(x, y, z) for z in ('0', '1.25') for x, y in (('0', '0'), ('2', '0'), ('2', '3'), ('0', '3'))]
        faces = ((1, 4, 3, 2), (5, 6, 7, 8), (1, 2, 6, 5), (2, 3, 7, 6), (3, 4, 8, 7), (4, 1, 5, 8))
        with tempfile.TemporaryDirectory() as folder:
            path = Path(folder) / 'box.obj'
            path.write_text(''.join(f'v {" ".join(at)}\n' for at in corners) + ''.join(f'f {" ".join(map(str, face))}\n' for face in faces))
            said = self.said(Unfit, lambda: self.bench.import_file(path))
            self.assertIn('box.obj: the point (0, 0, 5/4) is no multiple of the step, 1 mm: refine(4) before it makes the step as fine, rounded=True', said)
            self.assertNotIn('--', said)
            self.bench.block((9, 9, 9), (1, 1, 1))
            self.bench.refine(4)
            self.assertEqual(self.bench.volume(self.bench.import_file(path)[0]), Fraction(15, 2))

    def test_texts_join_no_causes(self):
        texts = [*MISFITS.values(), *TEXTS.values(), *(text for _, text in CAUSES.values())]
        self.assertGreater(len(texts), 80)
        self.assertEqual([text for text in texts if ', or ' in text or ' or ' in text], [])
