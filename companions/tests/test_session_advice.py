"""What an exception says besides the condition: what would do, as gwb-explain says it, looked for when the text is asked for."""

import copy
import pickle
import tempfile
import threading
import unittest
from fractions import Fraction
from pathlib import Path
from unittest import mock

from support import library, opened, step_of

from gwb import Complaint, OffStep, Refused, Workbench
from gwb.protocol.advice import advice
from gwb.protocol.language import condition_text
from gwb.protocol.replies import Reply
from gwb.session import kernel

PLANE = (2, 3, 0, -11)


def in_python(said):
    """Advice for scripts, as the session gives it."""
    return [told.replace('gwb-script --scale 6', 'refine(6)') for told in said]


class Advice(unittest.TestCase):
    """A block of 7 by 5 by 3, and one beside it that is as high."""

    def setUp(self):
        self.bench = opened(self, step_of(
            self, 'test_a_fraction_in_a_point', 'test_a_split_off_the_lattice', 'test_cuts_off_the_lattice', 'test_drafts', 'test_faces_that_do_not_match',
            'test_it_is_copied_and_pickled'))
        self.block, self.beside = self.bench.block((0, 0, 0), (7, 5, 3)), self.bench.block((7, 0, 0), (4, 5, 3))

    def refused(self, call):
        with self.assertRaises(Refused) as caught:
            call()
        return caught.exception

    def test_a_split_off_the_lattice(self):
        told = self.refused(lambda: self.bench.split(self.block, PLANE))
        said = advice('split 1 2 3 0 -11 3', Reply(('refused 37 1',)), self.bench.listing)
        self.assertEqual(list(told.advice), in_python(said))
        self.assertIn('split 1 2 3 0 -12 3', said)
        self.assertEqual(str(told).split('\n    ')[1:], in_python(said))
        self.bench.ask(said[said.index('# parallel, the cut moves by at most 0.50 along an edge:') + 1])
        self.assertEqual(len(self.bench.listing().solids), 3)

    def test_cuts_off_the_lattice(self):
        for name, above, call in (('cut', 3, lambda: self.bench.cut(self.block, PLANE)), ('trim', 3, lambda: self.bench.trim(self.block, PLANE)),
                                  ('above', 9, lambda: self.bench.cut(self.block, PLANE, above=9))):
            told = self.refused(call)
            said = advice(f'split 1 2 3 0 -11 {above}', Reply(('refused 37 1',)), self.bench.listing)
            self.assertEqual(list(told.advice), in_python(said), name)
        self.assertEqual(self.refused(lambda: self.bench.cut(self.block, (1, 0, 0, -99))).advice, ())

    def test_faces_that_do_not_match(self):
        face = next(face.number for face in self.bench.faces(solid=self.block) if face.normal[0] > 0)
        match = next(face.number for face in self.bench.faces(solid=self.beside) if face.normal[0] < 0)
        told = self.refused(lambda: self.bench.glue(face, self.beside.top))
        self.assertEqual(told.advice[:3], (f'# face {face} lies in x = 7, face {self.beside.top} in z = 3',
                                           f'# face {match} of solid 2 matches face {face}:', f'glue {face} {match}'))

    def test_it_is_of_the_model_that_refused(self):
        for name, change in (('a command', lambda: self.bench.block((50, 0, 0), (1, 1, 1))), ('undo', self.bench.undo), ('redo', self.bench.redo),
                             ('another in its place', lambda: (self.bench.undo(), self.bench.block((9, 9, 9), (1, 1, 1)))), ('the end', self.bench.close)):
            told = self.refused(lambda: self.bench.split(self.block, PLANE))
            change()
            self.assertEqual(told.advice, (), name)

    def test_drafts(self):
        with self.assertRaises(Refused) as alone, self.bench.draft():
            self.bench.split(self.block, PLANE)
        self.assertIn('split 1 2 3 0 -12 3', alone.exception.advice)
        with self.assertRaises(Refused) as later, self.bench.draft():
            self.bench.block((50, 0, 0), (1, 1, 1))
            self.bench.split(self.block, PLANE)
        self.assertEqual(later.exception.advice, ())
        with self.bench.draft():
            self.bench.block((50, 0, 0), (1, 1, 1))
            self.assertTrue(self.refused(lambda: self.bench.split(self.block, PLANE)).advice)

    def test_it_is_looked_for_once_and_only_when_asked(self):
        with mock.patch.object(kernel, 'advice', return_value=['# so']) as search:
            told = self.refused(lambda: self.bench.split(self.block, PLANE))
            search.assert_not_called()
            self.assertEqual([str(told).split('\n    ')[1:], str(told).split('\n    ')[1:]], [['# so'], ['# so']])
            search.assert_called_once()

    def test_a_large_model_is_not_searched(self):
        with mock.patch.object(kernel, '_MOST_EDGES', 23):
            self.assertEqual(self.refused(lambda: self.bench.split(self.block, PLANE)).advice, ())

    def test_another_thread_that_has_the_turn_is_not_waited_for(self):
        told, found = self.refused(lambda: self.bench.split(self.block, PLANE)), []
        with self.bench.draft():
            other = threading.Thread(target=lambda: found.append(told.advice))
            other.start()
            other.join(20)
        self.assertEqual(found, [()])

    def test_it_is_copied_and_pickled(self):
        told = self.refused(lambda: self.bench.split(self.block, PLANE))
        for again in (copy.copy(told), pickle.loads(pickle.dumps(told))):
            self.assertEqual((str(again), again.advice, again.name, again.value), (str(told), told.advice, 'NotLattice', 1))
        self.assertTrue(told.advice)

    def test_words_of_a_script_that_can_not_be_read(self):
        with tempfile.TemporaryDirectory() as folder:
            path = Path(folder, 'part.gwb')
            for line, said in (('block 3 0 0 9 1.5 1 1', '# `1.5` is not whole: all numbers are; choose a finer unit'),
                               ('kef 17', '# `17` is no half-edge: of edge 17 they are +17 and -17'), ('hole 1', '# gwb has no hole')):
                path.write_text(line + '\n')
                with self.assertRaises(Complaint) as caught:
                    Workbench.load(path, library())
                self.assertTrue(caught.exception.advice[0].startswith(said), caught.exception)
                self.assertIn('part.gwb, line 1: ', str(caught.exception))

    def test_a_fraction_in_a_point(self):
        third = Fraction(7, 9)
        told = r'^point\[0\]: 7/9 mm is no multiple of the step, 1 mm: the nearest is 1; refine\(9\) makes the step so fine$'
        with self.assertRaisesRegex(OffStep, told) as caught:
            self.bench.block((third, 0, 0), (1, 1, 1))
        self.assertEqual((caught.exception.nearest, caught.exception.finer), (1, 9))
        self.bench.block((2.0, 0, 0), (1, 1, 1))

    def test_what_is_said_without_the_model(self):
        self.assertEqual(condition_text(37), 'the plane cuts edge X between whole coordinates; a finer unit would do, or a plane near by')
        self.assertEqual(condition_text(12), 'solid X has more than a vertex')
