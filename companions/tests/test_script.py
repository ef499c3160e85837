"""Scripts made from listings: run on the empty workbench they list the same, byte for byte, and taken back leave nothing."""

import random
import subprocess
import unittest

from support import REPOSITORY, InFolder, box, lamina, listing, model_in, plate, program, run, scripts, turned

from gwb.errors import Unfit
from gwb.geometry.free_numbers import FreeNumbers
from gwb.protocol.listing import model_of
from gwb.protocol.replies import split_replies
from gwb.scripts.handle_pairs import handle_pairs
from gwb.scripts.inversion import script_of, taking_away
from gwb.scripts.short_script import short_script_of

TORUS = [[(1, 2, 5, 4)], [(2, 3, 6, 5)], [(3, 1, 4, 6)], [(4, 5, 8, 7)], [(5, 6, 9, 8)], [(6, 4, 7, 9)],
         [(7, 8, 2, 1)], [(8, 9, 3, 2)], [(9, 7, 1, 3)]]


def replies_to(lines):
    """What gwb replies to the lines."""
    data = ''.join(line + '\n' for line in lines).encode()
    return subprocess.run([program()], input=data, capture_output=True, check=False).stdout.decode()


def listing_in(text):
    """The last listing of the text."""
    found = [reply for reply in split_replies(text.encode()) if reply.is_listing]
    return '\n'.join(found[-1].lines) + '\n'


def recipes():
    """The commands of each block of docs/RECIPES.md that begins with nothing or goes on from the one before."""
    lines, inside = [], False
    for line in (REPOSITORY / 'docs' / 'RECIPES.md').read_text().splitlines():
        if line.startswith('```'):
            inside = line == '```gwb'
        elif inside and line and not line.startswith((' ', '#')):
            lines.append(line.split('  ')[0])
            yield [*lines, 'list']
        elif not inside and line.startswith('##'):
            lines = []


def has_one_vertex(word):
    """Whether the half-edges of a loop all leave one vertex where what follows a mate leaves the same vertex."""
    after = dict(zip(word, word[1:] + word[:1]))
    half, around = after[-word[0]], 1
    while half != word[0]:
        half, around = after[-half], around + 1
    return around == len(word)


class Scripts(unittest.TestCase):
    """Whole models."""

    def same(self, text, make=script_of):
        lines, back = make(model_in(text)), taking_away(model_in(text))
        self.assertEqual(replies_to([*lines, 'list', *back, 'list']), 'ok\n' * len(lines) + text + 'ok\n' * len(back) + 'empty\n')
        return lines

    def test_every_listing_that_is_stored(self):
        count = 0
        for script in scripts():
            for reply in split_replies(script.with_suffix('.expected').read_bytes()):
                if reply.is_listing:
                    with self.subTest(script.stem):
                        self.same('\n'.join(reply.lines) + '\n')
                        self.same('\n'.join(reply.lines) + '\n', short_script_of)
                        count += 1
        self.assertGreaterEqual(count, 59)

    def test_the_recipes(self):
        seen = set()
        for lines in recipes():
            text = listing_in(replies_to(lines))
            if text not in seen and text != 'empty\n':
                seen.add(text)
                self.same(text)
        self.assertGreaterEqual(len(seen), 50)

    def test_a_listing_of_ten_thousand_edges(self):
        text = plate(29)
        lines = self.same(text)
        self.assertLess(len(lines), 1.5 * text.count('\nedge '))

    def test_handles_without_a_ring(self):
        points = [(x, y, x * y) for x in range(3) for y in range(3)]
        self.same(listing(points, TORUS))

    def test_edges_of_many_handles_pair_up(self):
        rng, seen = random.Random(5), 0
        for size in [2, 4, 6] * 300:
            word = [*range(1, size + 1), *range(-size, 0)]
            rng.shuffle(word)
            if has_one_vertex(word):
                seen += 1
                pairs = list(handle_pairs(word))
                self.assertEqual(sorted(edge for pair in pairs for edge in pair), list(range(1, size + 1)))
        self.assertGreaterEqual(seen, 100)

    def test_faces_with_rings_and_shells(self):
        points, faces = box((0, 0, 0), (9, 9, 9))
        more, others = box((2, 2, 2), (5, 5, 5), 9)
        self.same(listing(points + more, faces + turned(others)))
        self.same(lamina([(0, 0), (9, 0), (9, 9), (0, 9)], [(0, 0), (2, 6), (6, 2)], [(7, 7), (7, 8), (8, 8)]))

    def test_lone_loops(self):
        self.same('solid 1\nface 1 1 1\nloop 1 at 1\nvertex 1 0 0 0\n')
        self.same('solid 4\nface 9 4 3 5 7\nloop 3 at 1\nloop 5 at 8\nloop 7 at 2\nvertex 1 0 0 0\nvertex 2 1 1 1\nvertex 8 0 0 0\n')

    def test_edges_that_all_end_at_one_vertex(self):
        spokes = range(1, 8)
        halves = ' '.join(f'+{edge} -{edge % 7 + 1}' for edge in spokes)
        rows = ['solid 1', 'face 1 1 1', 'loop 1 ' + halves, *(f'edge {i} {i} 8' for i in spokes),
                *(f'vertex {i} {i} 0 0' for i in spokes), 'vertex 8 0 0 0']
        self.same('\n'.join(rows) + '\n')

    def test_random_models_of_commands(self):
        rng = random.Random(7)
        for _ in range(25):
            text = listing_in(replies_to([*_random_lines(rng), 'list']))
            if text != 'empty\n':
                self.same(text)

    def test_numbers_that_are_spent(self):
        free = FreeNumbers('face', [3, 1_000_000])
        self.assertEqual([free.take(), free.take(), free.take()], [1, 2, 4])
        with self.assertRaisesRegex(Unfit, 'no solid number is free'):
            FreeNumbers('solid', range(1, 1_000_001)).take()


def _random_lines(rng):
    """Commands most of which are accepted, with holes, cuts and handles among them."""
    yield 'block 1 0 0 0 12 12 12'
    yield 'block 2 20 0 0 6 6 6'
    for i in range(60):
        edge, other, new = (rng.choice((-1, 1)) * rng.randint(1, 30), rng.choice((-1, 1)) * rng.randint(1, 30), 100 + i)
        yield rng.choice((f'mev {edge:+d} {edge:+d} {new} {new} {i} {i * i} 1', f'mef {edge:+d} {other:+d} {new} {new} {new}',
                          f'kemr {edge:+d} {new}', f'kef {edge:+d}', f'kev {edge:+d}', f'kfmrh {abs(edge)} {abs(other)}',
                          f'mekr {edge:+d} {other:+d} {new}', f'ringmv {new - 1} {abs(other)} in', f'mfkrh {new - 1} {new}'))


class Options(InFolder):
    """The words of the command line."""

    def points(self, *words):
        path = self.file('listing', listing([(1, 2, 3), (5, 2, 3), (5, 9, 3)], [[(1, 2, 3)], [(3, 2, 1)]]))
        outcome = run('script', *words, path)
        self.assertEqual((outcome.status, outcome.err), (0, ''))
        model = model_of(split_replies(listing_in(replies_to([*outcome.out.splitlines(), 'list'])).encode())[0])
        return [model.vertices[vertex] for vertex in (1, 2, 3)]

    def test_moved_turned_and_scaled_in_the_order_given(self):
        self.assertEqual(self.points('--move', '10', '-2', '0'), [(11, 0, 3), (15, 0, 3), (15, 7, 3)])
        self.assertEqual(self.points('--turn', 'z', '1'), [(-2, 1, 3), (-2, 5, 3), (-9, 5, 3)])
        self.assertEqual(self.points('--turn', 'x', '--scale', '2'), [(2, -6, 4), (10, -6, 4), (10, -6, 18)])
        self.assertEqual(self.points('--turn', 'y', '2', '--move', '0', '0', '1'), [(-1, 2, -2), (-5, 2, -2), (-5, 9, -2)])
        self.assertEqual(self.points('--turn', 'y', '-3'), self.points('--turn', 'y', '1'))
        self.assertEqual(self.points('--scale', '3', '--move', '1', '0', '0')[0], (4, 6, 9))

    def test_mirrored(self):
        self.assertEqual(self.points('--mirror', '1', '0', '0', '0'), [(-1, 2, 3), (-5, 2, 3), (-5, 9, 3)])
        self.assertEqual(self.points('--mirror', '0', '2', '0', '-1'), [(1, -1, 3), (5, -1, 3), (5, -8, 3)])
        self.assertEqual(self.points('--mirror', '1', '-1', '0', '2'), [(0, 3, 3), (0, 7, 3), (7, 7, 3)])
        path = self.file('listing', listing(*box((0, 0, 0), (2, 3, 4))))
        lines = run('script', '--mirror', '0', '3', '-3', '-6', path).out.splitlines()
        self.assertEqual(replies_to([*lines, 'volume 1', 'count 1']), 'ok\n' * len(lines) + 'volume 144\ncount 8 12 6 0 2\n')

    def test_a_solid_left_out(self):
        points, faces = box((0, 0, 0), (1, 1, 1))
        more, others = box((5, 0, 0), (6, 1, 1), 9)
        path = self.file('listing', listing(points + more, faces, others))
        self.assertEqual(run('script', '--without', '1', path), run('script', '--solid', '2', path))
        self.assertEqual(run('script', '--without', '1', '--without', '2', path), ('', '', 0))

    def test_a_solid_taken_away(self):
        made = ['block 1 0 0 0 8 6 6', 'split 1 1 0 1 -12 2']
        path = self.file('listing', listing_in(replies_to([*made, 'list'])))
        lines = run('script', '--solid', '2', '--away', path).out.splitlines()
        self.assertEqual(replies_to([*made, *lines, 'volume 1', 'volume 2']), 'ok\n' * (2 + len(lines)) + 'volume 1656\nrefused 2 2\n')
        self.assertEqual(replies_to([*made, *run('script', '--away', path).out.splitlines(), 'list']).splitlines()[-1], 'empty')

    def test_a_copy_beside(self):
        path = self.file('listing', listing_in(replies_to(['block 1 0 0 0 4 4 4', 'list'])))
        self.assertEqual(run('script', '--short', '--copy', '--move', '9', '0', '0', path).out, 'block 2 9 0 0 4 4 4\n')
        self.assertEqual(run('script', '--copy', '--turn', 'z', path), run('script', '--after', path, '--turn', 'z', path))

    def test_one_solid(self):
        points, faces = box((0, 0, 0), (1, 1, 1))
        more, others = box((5, 0, 0), (6, 1, 1), 9)
        outcome = run('script', '--solid', '2', self.file('listing', listing(points + more, faces, others)))
        text = listing_in(replies_to([*outcome.out.splitlines(), 'list']))
        self.assertTrue(text.startswith('solid 2\nface 7 2 7\n'))
        self.assertEqual(text.count('vertex'), 8)

    def test_after_another_model(self):
        path = self.file('listing', listing_in(replies_to(['block 1 0 0 0 4 4 4', 'list'])))
        outcome = run('script', '--short', '--move', '9', '0', '0', '--after', path, path)
        self.assertEqual(outcome.out, 'block 2 9 0 0 4 4 4\n')
        lines = run('script', '--after', path, path).out.splitlines()
        both = replies_to(['block 1 0 0 0 4 4 4', *lines, 'volume 1', 'volume 2'])
        self.assertEqual(both, 'ok\n' * (len(lines) + 1) + 'volume 384\nvolume 384\n')

    def test_short(self):
        for lines in (['block 1 1 2 3 4 5 6'], ['block 2 0 0 0 1 1 1', 'block 1 3 0 0 1 1 1'],
                      ['lamina 1 0 0 0 3 0 0 0 3 0', 'sweep 1 0 0 2', 'sweep 1 1 1 5'], ['lamina 7 0 0 0 3 0 0 0 3 1']):
            outcome = run('script', '--short', self.file('listing', replies_to([*lines, 'list'])[3 * len(lines):]))
            self.assertEqual(outcome.out.splitlines(), lines)

    def refuse(self, status, part, *words):
        outcome = run('script', *words)
        self.assertEqual((outcome.status, outcome.out), (status, ''))
        self.assertIn(part, outcome.err.splitlines()[-1])
        self.assertNotIn('Traceback', outcome.err)
        if status == 3:
            self.assertEqual(outcome.err.count('\n'), 1)

    def test_words_that_are_refused(self):
        path = self.file('listing', listing(*box((0, 0, 0), (4, 4, 4))))
        self.refuse(3, 'past 1,000,000,000', '--move', '999999999', '0', '0', path)
        self.refuse(3, 'past 1,000,000,000', '--scale', '300000000', path)
        self.refuse(3, 'no solid 5', '--solid', '5', path)
        self.refuse(3, 'no solid 5', '--without', '5', path)
        self.refuse(3, 'between whole coordinates', '--mirror', '2', '0', '0', '1', '--mirror', '3', '0', '0', '1', path)
        self.refuse(2, 'all zero', '--mirror', '0', '0', '0', '1', path)
        self.refuse(2, 'not allowed', '--copy', '--after', path, path)
        self.refuse(2, 'not allowed', '--away', '--short', path)
        self.refuse(2, 'not allowed', '--away', '--turn', 'x', path)
        self.refuse(3, 'No such file', '--after', path + '.none', path)
        self.refuse(2, '--scale', '--scale', '0', path)
        self.refuse(2, '--move', '--move', '1', 'a', '0', path)
        self.refuse(2, '--turn', path, '--turn', 'w')
        self.refuse(2, 'unrecognized', path, '--turn', 'x', 'y')

    def test_damaged_input(self):
        good = listing(*box((0, 0, 0), (4, 4, 4)))
        for data in (b'', b'ok\n', b'hello\n', good[:-1], good[:50], good.replace('edge 3', 'edge 99'), good.replace('solid 1', 'solid 2'),
                     good.replace('+1', '-1', 1), good.replace('vertex 8', 'vertex 9'), good.replace('face 2', 'face 1'),
                     good.replace('4 4 4', '4 4 1000000001'), good.replace('loop 6', 'loop six'), good + good[20:], bytes(range(256)),
                     good.replace('vertex 1 0 0 0\n', '')):
            self.refuse(3, 'gwb-script: ', self.file('listing', data))
