"""A solid inside out is said by name."""

import tempfile
import unittest
from pathlib import Path

from support import box, listing, model_in, run, turned

from gwb.programs.inside_out import inside_out

POINTS, FACES = box((0, 0, 0), (2, 2, 2))
MORE, OTHERS = box((5, 0, 0), (6, 1, 1), 9)
SECOND_TURNED = listing(POINTS + MORE, FACES, turned(OTHERS))
BOTH_WELL = listing(POINTS + MORE, FACES, OTHERS)
WARNING = 'warning: solid 2 is inside out: its volume is negative, its faces look inwards\n'


class InsideOut(unittest.TestCase):
    """Solids, and what is said where something is made of them."""

    def test_which_are(self):
        self.assertEqual(inside_out(model_in(SECOND_TURNED)), [2])
        self.assertEqual(inside_out(model_in(BOTH_WELL)), [])

    def test_a_hollow_is_none(self):
        hollow, walls = box((1, 1, 1), (3, 3, 3), 9)
        points, faces = box((0, 0, 0), (4, 4, 4))
        self.assertEqual(inside_out(model_in(listing(points + hollow, faces + turned(walls)))), [])

    def test_what_is_said(self):
        with tempfile.TemporaryDirectory() as folder:
            path = Path(folder, 'replies')
            for name in ('svg', 'mesh', 'script', 'view'):
                path.write_text(SECOND_TURNED)
                outcome = run(name, str(path))
                self.assertEqual((outcome.status, outcome.err), (0, f'gwb-{name}: {WARNING}'))
                self.assertTrue(outcome.out)
                self.assertEqual(run(name, '--solid', '1', str(path)).err, '')
                path.write_text(BOTH_WELL)
                self.assertEqual(run(name, str(path)).err, '')

    def test_where_a_script_lists_it(self):
        with tempfile.TemporaryDirectory() as folder:
            script, replies = Path(folder, 'script'), Path(folder, 'replies')
            script.write_text('list\nundo\nlist\n')
            for first, last, said in ((BOTH_WELL, SECOND_TURNED, f'gwb-explain: {WARNING}'), (SECOND_TURNED, BOTH_WELL, '')):
                replies.write_text(f'{first}ok\n{last}')
                self.assertEqual(run('explain', str(script), str(replies)), ('0 complaints\n', said, 0))
            replies.write_text(f'{BOTH_WELL}ok\n{BOTH_WELL.replace("edge 1 ", "edge 99 ")}')
            broken = run('explain', str(script), str(replies))
            self.assertEqual((broken.out, broken.err.count('\n'), broken.status), ('', 1, 3))

    def test_step_refuses_it_by_name(self):
        with tempfile.TemporaryDirectory() as folder:
            path = Path(folder, 'replies')
            path.write_text(SECOND_TURNED)
            outcome = run('step', str(path))
            self.assertEqual((outcome.status, outcome.out), (3, ''))
            self.assertIn('of solid 2 is inside out', outcome.err)
            self.assertEqual(outcome.err.count('\n'), 1)
