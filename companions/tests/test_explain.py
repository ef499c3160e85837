"""Complaints are explained, and replies that aren't those of the script are refused."""

import os
import re
import subprocess
import tempfile
import unittest

from support import REPOSITORY, box, boxes, listing, program, run, scripts

from gwb import Workbench
from gwb.errors import NotReplies
from gwb.geometry.lattice_cuts import off_lattice_cut
from gwb.geometry.matching_faces import _plane
from gwb.programs.explain import annotated, complaints, join
from gwb.meanings import refusal
from gwb.protocol.language import FAULTS, first_word, is_answered
from gwb.protocol.listing import read_model
from gwb.refusals import NAMES, TEXTS
from gwb.protocol.replies import split_replies
from gwb.protocol.word_advice import _ELSEWHERE, word_advice


def explained(script, replies):
    """The lines that explain a script named s."""
    return list(complaints('s', join(script, split_replies(replies))))


class Complaints(unittest.TestCase):
    """What is said of complaints."""

    def test_none(self):
        self.assertEqual(explained(b'undo\n', b'ok\n'), ['0 complaints'])
        self.assertEqual(explained(b'', b''), ['0 complaints'])

    def test_a_refusal(self):
        self.assertEqual(explained(b'# a wire\n\n\tkev +1\r\n', b'refused 16 1\n'), [
            's:3: kev +1: refused 16 1: KeptEndBare: only this edge leaves vertex 1, which is kept, '
            'and others leave the one that goes', '1 complaint'])

    def test_a_fault(self):
        self.assertEqual(explained(b'kev\n', b'fault 3\n')[0],
                         's:1: kev: fault 3: MissingWord: a word is missing')

    def test_memory(self):
        self.assertIn('may be given again', explained(b'undo\n', b'memory\n')[0])

    def test_an_undo_behind_a_refusal(self):
        """It is told once what it takes back."""
        told = '    # the `undo` that follows takes back the last command that was accepted: a refused one has changed nothing'
        lines = explained(b'kev +1\n# then\nundo\nkev +2\nundo\nkev +1\nlist\n', b'refused 5 1\nok\nrefused 5 2\nok\nrefused 5 1\nempty\n')
        self.assertEqual([line for line in lines if line.startswith('    ')], [told])
        self.assertEqual(lines[1], told)
        self.assertNotIn(told, explained(b'kev +1\nundo\n', b'refused 5 1\nrefused 25 0\n'))

    def test_listings_count_as_one_reply(self):
        listing = b'solid 1\nface 1 1 1\nloop 1 at 1\nvertex 1 0 0 0\n'
        self.assertEqual(explained(b'list\nlist\nundo\nundo', listing + listing + b'ok\nrefused 25 0\n')[0],
                         's:4: undo: refused 25 0: NothingToUndo: there is nothing to undo')

    def test_lines_that_are_long_or_not_ascii(self):
        lines = explained(b'#' * 65537 + b'\n# caf\xe9\n' + b'#' * 65536 + b'\n', b'fault 6\nfault 5\n')
        self.assertEqual(lines[0], 's:1: ' + '#' * 58 + '..: fault 6: LongLine: the line has more than 65,536 bytes')
        self.assertEqual(lines[1], 's:2: # caf\\xe9: fault 5: NotAscii: the line has a byte above 127')

    def test_the_value_is_said_as_the_command_means_it(self):
        self.assertIn('point 3', refusal(33, 3, 'lamina').text)
        self.assertIn('face 3', refusal(33, 3, 'glue').text)
        self.assertIn('all zero', refusal(35, 0, 'split').text)
        self.assertIn('coefficient 2', refusal(35, 2, 'split').text)

    def test_a_run_that_stopped(self):
        self.assertEqual(len(explained(b'undo\nlist\n', b'refused 25 0\n')), 2)


BLOCK = b'block 1 0 0 0 3 3 3\n'
SPLIT = b'split 1 2 0 0 -3 2\n'
REFUSED = b'refused 37 1\n'


class CutsOffTheLattice(unittest.TestCase):
    """What is said of a split whose points aren't whole."""

    LISTED = listing(*box((0, 0, 0), (3, 3, 3))).encode()

    def advice(self, script, replies):
        """The lines below the complaint of one refused split."""
        lines = explained(script, replies)
        start = next(place for place, line in enumerate(lines) if line.startswith('s:'))
        self.assertEqual(lines[-1], '1 complaint')
        return lines[start + 1:-1]

    def test_with_a_listing_before_or_after_it(self):
        for script, replies in ((BLOCK + b'list\n' + SPLIT, b'ok\n' + self.LISTED + REFUSED),
                                (BLOCK + SPLIT + b'# then\nlist\n', b'ok\n' + REFUSED + self.LISTED),
                                (BLOCK + b'list\nvolume 1\n' + SPLIT + b'kvfs 9\n', b'ok\n' + self.LISTED + b'volume 162\n' + REFUSED + b'ok\n')):
            with self.subTest(script):
                told = self.advice(script, replies)
                self.assertEqual(told, [f'    {line}' for line in off_lattice_cut(read_model(self.LISTED), 1, (2, 0, 0, -3)).advice(2)])
                self.assertEqual(sum(' is cut at 3/2 ' in line for line in told), 4)
                self.assertIn('    split 1 2 0 0 -6 2', told)

    def test_beside_the_line(self):
        lines = list(annotated(join(BLOCK + b'list\n' + SPLIT, split_replies(b'ok\n' + self.LISTED + REFUSED))))
        place = next(place for place, line in enumerate(lines) if ' refused 37 1: NotLattice: ' in line)
        told = off_lattice_cut(read_model(self.LISTED), 1, (2, 0, 0, -3)).advice(2)
        self.assertTrue(lines[place].startswith('split 1 2 0 0 -3 2 '))
        self.assertEqual([line.strip() for line in lines[place + 1:]], told)

    def test_lines_that_are_never_refused_so(self):
        for line in (b'volume 1\n', b'split 1 2 0 0\n', b'split 1 0 0 0 1 2\n', b'split 1 a 0 0 1 2\n'):
            with self.subTest(line), self.assertRaisesRegex(NotReplies, 'never refuses NotLattice'):
                explained(line, REFUSED)

    def test_a_listing_of_another_model(self):
        with self.assertRaises(NotReplies):
            explained(BLOCK + b'list\nsplit 5 2 0 0 -3 2\n', b'ok\n' + self.LISTED + REFUSED)

    def test_without_a_listing_of_that_model(self):
        hint = ['    # with a `list` on the line before, it is told here where the plane cuts, and what would do']
        self.assertEqual(self.advice(BLOCK + SPLIT, b'ok\n' + REFUSED), hint)
        self.assertEqual(self.advice(BLOCK + b'list\nblock 2 9 9 9 1 1 1\n' + SPLIT, b'ok\n' + self.LISTED + b'ok\n' + REFUSED), hint)


class FacesThatDoNotMatch(unittest.TestCase):
    """What is said of a glue whose faces have other points. The faces of a box are its bottom, top, front, right, back and left."""

    def advice(self, listed, line, hint=True):
        script, replies = (b'block 1 0 0 0 1 1 1\nlist\n', b'ok\n' + listed) if hint else (b'block 1 0 0 0 1 1 1\n', b'ok\n')
        lines = explained(script + line + b'\n', replies + b'refused 34 2\n')
        return [told.strip() for told in lines[1:-1]]

    def test_the_planes_and_the_face_that_does(self):
        listed = boxes(((0, 0, 0), (4, 4, 4)), ((4, 0, 0), (6, 4, 4))).encode()
        self.assertEqual(self.advice(listed, b'glue 4 7'), ['# face 4 lies in x = 4, face 7 in z = 0', '# face 12 of solid 2 matches face 4:', 'glue 4 12'])
        self.assertEqual(self.advice(listed, b'glue 1 12'), ['# face 1 lies in z = 0, face 12 in x = 4', '# face 4 of solid 1 matches face 12:', 'glue 4 12'])

    def test_corners_that_only_one_has(self):
        listed = boxes(((0, 0, 0), (4, 4, 4)), ((4, 0, 0), (6, 4, 5))).encode()
        self.assertEqual(self.advice(listed, b'glue 4 12'), ['# face 4 has the corner 4 0 4, and 1 more that face 12 has not',
                                                            '# face 12 has the corner 4 0 5, and 1 more that face 4 has not',
                                                            '# no face of another solid matches face 4 or face 12'])

    def test_faces_that_look_the_same_way(self):
        listed = boxes(((0, 0, 0), (4, 4, 4)), ((2, 0, 0), (4, 4, 4))).encode()
        self.assertEqual(self.advice(listed, b'glue 4 10')[0], '# both look the same way, and faces that are glued look at each other')

    def test_a_slanted_plane(self):
        points = [(0, 0, 0), (3, 0, 0), (0, 2, 0), (0, 0, -1)]
        listed = listing(points, [[(1, 3, 2)], [(1, 2, 4)], [(2, 3, 4)], [(1, 4, 3)]])
        other = listing(*box((9, 9, 9), (10, 10, 10), 5)).replace('solid 1', 'solid 2')
        model = read_model(listed.encode())
        self.assertEqual(str(_plane(model, 3)), '2x + 3y - 6z = 6')
        self.assertIn('vertex', other)

    def test_without_a_listing(self):
        self.assertEqual(self.advice(b'', b'glue 4 7', hint=False), ['# with a `list` on the line before, it is told here which face would match'])

    def test_replies_of_another_script(self):
        listed = boxes(((0, 0, 0), (4, 4, 4)), ((4, 0, 0), (6, 4, 4))).encode()
        for line, part in ((b'glue 4', 'never refuses NoMatch'), (b'kvfs 1', 'never refuses NoMatch'), (b'glue 4 99', 'has not')):
            with self.subTest(line), self.assertRaisesRegex(NotReplies, part):
                self.advice(listed, line)


class WordsThatCanNotBeRead(unittest.TestCase):
    """What is said of a line that is no command."""

    def test_each(self):
        for line, fault, told in (
                ('block 1 0 0 0 1.5 1 1', 2, '`1.5` is not whole: all numbers are; choose a finer unit, such as tenths (gwb-script --scale 10 multiplies a model)'),
                ('kef 17', 2, '`17` is no half-edge: of edge 17 they are +17 and -17'), ('kef x', 2, '`x` is no half-edge: of edge E they are +E and -E'),
                ('mev 3 +1 1 1 0 0 0', 2, '`3` is no corner: it is +3 or -3, a half-edge, or @3, the vertex of lone loop 3'),
                ('kvfs +1', 2, '`+1`: a sign + stands before half-edges alone'), ('kvfs one', 2, '`one` is no number'),
                ('mef +1 +2 1/2 1 1', 2, '`1/2` is not whole'), ('kvfs 1e3', 2, '`1e3` is not whole'),
                ('mvfs 1 1 1 1 0 0 9999999999999999999', 2, '`9999999999999999999` has more than 18 digits'),
                ('move 1 2 3', 1, 'gwb has no move: gwb-script makes the script of a model that is moved (--move DX DY DZ); in Python it is move'),
                ('hole 1', 1, 'gwb has no hole: it is a method of Python: bench.hole'), ('BLOCK 1', 1, 'commands are written in small letters: block'),
                ('kevv +1', 1, 'is kev meant?'), ('splitt', 1, 'is split meant?')):
            with self.subTest(line):
                found = word_advice(line, fault)
                self.assertEqual(len(found), 1)
                self.assertTrue(found[0].startswith(f'# {told}'), found)

    def test_where_nothing_is_known(self):
        for line, fault in (('', 1), ('zzz', 1), ('kev +1', 2), ('mev @4 +1 1 1 0 0 0', 2), ('ringmv 1 2 up', 1), ('kev', 3), ('kev +1 2', 4)):
            self.assertEqual(word_advice(line, fault), [], line)

    def test_methods_of_python_are_there(self):
        """Each word that is told to be Python's is a method of the session."""
        for word, told in _ELSEWHERE.items():
            for name in re.findall(r'bench\.(\w+)|in Python it is (\w+)', told):
                self.assertTrue(callable(getattr(Workbench, ''.join(name), None)), (word, name))

    def test_below_the_complaint(self):
        self.assertEqual(explained(b'kef 17\n', b'fault 2\n')[1:], ['    # `17` is no half-edge: of edge 17 they are +17 and -17', '1 complaint'])


class Refusing(unittest.TestCase):
    """Replies that can't be those of the script."""

    def refuse(self, script, replies, part):
        with self.assertRaises(NotReplies) as caught:
            explained(script, replies)
        self.assertIn(part, str(caught.exception))

    def test_too_few(self):
        self.refuse(b'list\nundo\n', b'empty\n', 'line 2 of the script has no reply')
        self.refuse(b'undo\nlist\n', b'refused 25 0', 'no newline')

    def test_too_many(self):
        self.refuse(b'# undo\n', b'ok\n', 'more replies')

    def test_others(self):
        self.refuse(b'volume 1\n', b'ok\n', 'line 1')
        self.refuse(b'undo\n', b'empty\n', 'line 1')
        self.refuse(b'list\n', b'ok\n', 'line 1')
        self.refuse(b'list\n', b'hello\n', 'no reply of gwb')


class Annotating(unittest.TestCase):
    """The script with its replies beside it."""

    def test_replies_stand_beside_their_lines(self):
        joined = join(b'# nothing\nlist\nmvfs 1 1 1 1 0 0 0\n\nlist\nundo\n',
                      split_replies(b'empty\nok\nsolid 1\nface 1 1 1\nloop 1 at 1\nvertex 1 0 0 0\nok\n'))
        self.assertEqual(list(annotated(joined)), [
            '# nothing',
            'list                 empty',
            'mvfs 1 1 1 1 0 0 0   ok',
            '',
            'list                 solid 1',
            '                     face 1 1 1',
            '                     loop 1 at 1',
            '                     vertex 1 0 0 0',
            'undo                 ok'])


class Language(unittest.TestCase):
    """Which lines are commands, and the names of complaints."""

    def test_which_lines_are_answered(self):
        for line in (b'', b' \t\r', b'# x', b'  #x', b'#' * 65536):
            self.assertFalse(is_answered(line), line)
        for line in (b'list', b'x', b'\x0b', b'# \xff', b' ' * 65537):
            self.assertTrue(is_answered(line), line)

    def test_the_first_word(self):
        self.assertEqual(first_word(b'\t kev\r+1'), 'kev')
        self.assertEqual(first_word(b''), '')

    def test_all_refusals_have_names_of_the_language(self):
        language = (REPOSITORY / 'docs' / 'SCRIPT.md').read_text()
        self.assertEqual(list(NAMES), list(range(1, 45)))
        self.assertEqual(list(TEXTS), list(NAMES))
        self.assertEqual(list(FAULTS), list(range(1, 7)))
        for name, text in zip(NAMES.values(), TEXTS.values()):
            self.assertIn(name, language)
            self.assertLessEqual(len(re.findall(r'\bX\b', text)), 1)

    def test_the_program_has_the_same_names(self):
        shown = subprocess.run([program(), '--help'], stdout=subprocess.PIPE, check=True).stdout.decode()
        named = dict(re.findall(r'(\d+) ([A-Z]\w+)', shown.split('Refusals:')[1].split('Faults:')[0]))
        self.assertEqual(named, {str(number): name for number, name in NAMES.items()})
        named = dict(re.findall(r'(\d+) ([A-Z]\w+)', shown.split('Faults:')[1].split('\n\n')[0]))
        self.assertEqual(named, {str(number): meaning.name for number, meaning in FAULTS.items()})


class Scripts(unittest.TestCase):
    """Every example and every worked script."""

    def test_every_script(self):
        for script in scripts():
            with self.subTest(script.stem):
                replies = script.with_suffix('.expected').read_bytes()
                outcome = run('explain', str(script), str(script.with_suffix('.expected')))
                complaining = [line for line in replies.split(b'\n') if line.startswith((b'refused', b'fault', b'memory'))]
                self.assertEqual(outcome.err, '')
                self.assertEqual(outcome.status, 1 if complaining else 0)
                lines = [line for line in outcome.out.splitlines() if not line.startswith('    ')]
                self.assertEqual(len(lines), len(complaining) + 1)
                self.assertTrue(lines[-1].startswith(f'{len(complaining)} complaint'))
                for line, complaint in zip(lines, complaining):
                    self.assertIn(f': {complaint.decode()}: ', line)

    def test_every_script_annotated(self):
        for script in scripts():
            with self.subTest(script.stem):
                outcome = run('explain', '--annotate', str(script), str(script.with_suffix('.expected')))
                for reply in script.with_suffix('.expected').read_text().splitlines():
                    self.assertIn(reply, outcome.out)

    def test_both_from_standard_input(self):
        self.assertEqual(run('explain', '-').status, 3)

    def test_replies_of_another_script(self):
        with tempfile.TemporaryDirectory() as folder:
            path = os.path.join(folder, 'part.gwb')
            with open(path, 'w') as file:
                file.write('list\n')
            outcome = run('explain', path, str(scripts()[0].with_suffix('.expected')))
        self.assertEqual(outcome.status, 3)
        self.assertEqual(outcome.err.count('\n'), 1)
