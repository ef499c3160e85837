"""The Python session gives what the scripts do: on every worked script, and on its own."""

import copy
import ctypes.util
import os
import pickle
import tempfile
import unittest
from fractions import Fraction
from math import gcd
from pathlib import Path
from unittest import mock

from support import STEP, library, opened, scripts, step_of

from gwb import Complaint, Faulted, Lone, Refused, Workbench
from gwb.errors import Ended, ProgramMissing
from gwb.programs.explain import join
from gwb.protocol.complaints import complaint
from gwb.protocol.listing import model_of
from gwb.protocol.replies import Reply, split_replies
from gwb.session.library import find_path


def corner(word):
    """A corner as the methods take it."""
    return Lone(int(word[1:])) if word.startswith('@') else int(word)


def call(bench, command, words):
    """Calls the method for a command that is well formed."""
    numbers = [corner(word) if word not in ('in', 'out') else word for word in words]
    point = tuple(numbers[-3:])
    calls = {
        'mvfs': lambda s, f, l, v, *_: bench.mvfs(point, solid=s, face=f, loop=l, vertex=v),
        'mev': lambda a, b, e, v, *_: bench.mev(a, b, point, edge=e, vertex=v),
        'mef': lambda a, b, e, f, l: bench.mef(a, b, edge=e, face=f, loop=l),
        'kemr': lambda half, l: bench.kemr(half, loop=l),
        'mekr': lambda a, b, e: bench.mekr(a, b, edge=e),
        'mfkrh': lambda l, f: bench.mfkrh(l, face=f),
        'lamina': lambda s, *xs: bench.lamina([xs[i:i + 3] for i in range(0, len(xs), 3)], solid=s),
        'block': lambda s, x, y, z, *sizes: bench.block((x, y, z), sizes, solid=s),
        'sweep': lambda f, *vector: bench.sweep(f, vector),
        'split': lambda s, a, b, c, d, t: bench.split(s, (a, b, c, d), above=t),
        'list': bench.listing,
        'volume': lambda solid: 6 * bench.volume(solid),
    }
    return calls.get(command, getattr(bench, {'list': 'listing'}.get(command, command)))(*numbers)


class Scripts(unittest.TestCase):
    """Every example and every worked script, by calls."""

    def test_every_script(self):
        path = library()
        for script in scripts():
            with self.subTest(script.stem), Workbench(path, step=step_of(self, 'test_every_script')) as bench:
                replies = split_replies(script.with_suffix('.expected').read_bytes())
                for answered in join(script.read_bytes(), replies):
                    if answered.reply is not None:
                        self.compare(bench, answered.line, answered.reply)

    def compare(self, bench, line, reply):
        if reply.word == 'fault':
            self.assertEqual(bench.ask(line.decode('utf-8', 'surrogateescape')), reply)
            return
        command, *words = line.decode().split()
        if command == 'split' and gcd(*map(int, words[1:5])) != 1:    # (the method reduces the plane, of whose range the kernel has its say)
            self.assertEqual(bench.ask(line.decode()), reply)
            return
        try:
            result = call(bench, command, words)
        except Refused as refused:
            self.assertEqual(f'refused {refused.number} {refused.value}', reply.lines[0])
            return
        if reply.is_listing:
            self.assertEqual(result, model_of(reply))
        elif command == 'plane':
            shortest = gcd(*reply.numbers[:3]) or 1
            self.assertEqual([*result[:4], 'flat' if result.flat else 'bent'],
                             [*(Fraction(number, shortest) for number in reply.numbers), reply.lines[0].split()[-1]])
        elif command in ('volume', 'count'):
            self.assertEqual(list(result) if command == 'count' else [result], reply.numbers)
        else:
            self.assertEqual(reply.lines, ('ok',))


class Session(unittest.TestCase):
    """The workbench by itself."""

    def setUp(self):
        self.bench = opened(self, step_of(self, 'test_a_closed_session', 'test_words_are_separated_as_the_program_separates_them'))

    def test_fresh_numbers_are_those_of_the_model(self):
        bench = self.bench
        bench.mvfs((0, 0, 0), solid=7, face=40, loop=50, vertex=60)
        block = bench.block((0, 0, 0), (1, 1, 1))
        model = bench.listing()
        self.assertEqual(block.solid, 8)
        self.assertEqual([face for face in model.faces if face != 40], [block.top, block.bottom, *block.sides])
        self.assertEqual(list(model.edges), list(block.edges))
        self.assertEqual([vertex for vertex in model.vertices if vertex != 60], list(block.vertices))
        self.assertEqual(bench.plane(block.top), (0, 0, 1, -1, True))
        self.assertEqual(bench.plane(block.bottom), (0, 0, -1, 0, True))

    def test_a_sweep_says_which_side_is_which(self):
        bench = self.bench
        lamina = bench.lamina([(0, 0, 0), (4, 0, 0), (0, 4, 0)])
        swept = bench.sweep(lamina.front, (0, 0, 3))
        model = bench.listing()
        for edge, side, rising, far, vertex, below in zip(
                lamina.edges, swept.sides, swept.rising, swept.far, swept.vertices, lamina.vertices):
            halves = set(map(abs, model.face_halves(side)))
            self.assertLessEqual({edge, rising, far}, halves)
            self.assertEqual(model.edges[rising], (below, vertex))

    def test_a_refusal_has_its_name_and_value(self):
        bench = self.bench
        made = bench.mvfs((0, 0, 0))
        edge = bench.mev(Lone(made.loop), Lone(made.loop), (5, 0, 0))
        bench.mev(-edge.edge, -edge.edge, (5, 5, 0))
        with self.assertRaises(Refused) as caught:
            bench.kev(edge.edge)
        self.assertEqual((caught.exception.name, caught.exception.value, caught.exception.number), ('KeptEndBare', made.vertex, 16))
        self.assertEqual(caught.exception.line, 'kev +1')
        self.assertTrue(str(caught.exception).startswith('KeptEndBare: only this edge leaves vertex 1'))

    def test_numbers_that_have_no_half_edge(self):
        for number in (10 ** 6 + 1, 2 ** 30 - 1, 2 ** 30, 2 ** 31, 2 ** 31 + 1, 2 ** 32 - 1):
            for corner in (number, -number, Lone(number)):
                with self.assertRaises(Refused) as caught:
                    self.bench.mev(corner, corner, (0, 0, 0))
                self.assertEqual((caught.exception.name, caught.exception.value), ('NumberRange', number))
            with self.assertRaises(Refused) as caught:
                self.bench.kev(-number)
            self.assertEqual((caught.exception.name, caught.exception.value), ('NumberRange', number))

    def test_half_edges_are_those_of_the_listing(self):
        bench = self.bench
        bench.block((0, 0, 0), (4, 4, 4))
        lone = bench.mvfs((9, 9, 9)).loop
        loops = bench.listing().loops
        self.assertEqual([bench.half_edges(loop) for loop in loops], [row.halves for row in loops.values()])
        self.assertEqual((bench.half_edges(lone), bench.half_edges(lone + 1)), ((), ()))

    def test_a_fault(self):
        reply = self.bench.ask('block 1 100000000000000000000 0 0 1 1 1')
        fault = complaint('block 1 ..', reply)
        self.assertIsInstance(fault, Faulted)
        self.assertEqual((fault.name, fault.number), ('BadNumber', 2))

    def test_numbers_after_lines_of_the_language(self):
        bench = self.bench
        bench.ask('mvfs 5 6 7 8 0 0 0')
        self.assertEqual(bench.mvfs((1, 1, 1)), (6, 7, 8, 9))
        bench.undo()
        self.assertEqual(bench.mvfs((1, 1, 1)), (7, 8, 9, 10))

    def test_lines_that_are_no_command(self):
        for line in ('', '# note', 'undo\nundo', '\ud800'):
            with self.assertRaises(ValueError):
                self.bench.ask(line)
        self.assertEqual(self.bench.ask('nonsense').lines, ('fault 1',))

    def test_words_are_separated_as_the_program_separates_them(self):
        bench = self.bench
        bench.block((0, 0, 0), (1, 1, 1))
        for line, fault in (('undo\x0b', 1), ('\u2003undo', 5), ('undo\x1c', 1), ('sweep ' + '9' * 5000 + ' 0 0 1', 2), ('sweep \u0663 0 0 1', 5),
                            ('volume\x0c1', 1)):
            self.assertEqual(bench.ask(line).lines, (f'fault {fault}',), line[:20])
        self.assertEqual(bench.script(), 'block 1 0 0 0 1 1 1\n')
        self.assertEqual(bench.ask('\t undo \r').lines, ('ok',))
        self.assertEqual(bench.script(), '')

    def test_numbers_after_the_greatest_there_is(self):
        bench = self.bench
        block = bench.block((0, 0, 0), (9, 9, 9))
        start = bench.face(block.top).outer.half_edges[0]
        bench.mev(start, start, (2, 2, 9), edge=1_000_000, vertex=1_000_000)
        bench.undo()
        made = [bench.mev(start, start, (2, 2, 9)) for _ in range(2)]
        self.assertEqual(made, [(13, 9), (14, 10)])
        bench.pocket(block.bottom, [(1, 1, 0), (1, 4, 0), (4, 1, 0)], 2)
        self.assertEqual(bench.volume(block), 729 - 9)
        bench.mvfs((20, 0, 0), solid=1_000_000)
        self.assertEqual([bench.mvfs((30, 0, 0)).solid, bench.block((40, 0, 0), (1, 1, 1)).solid], [2, 3])

    def test_a_closed_session(self):
        bench = self.bench
        block = bench.block((0, 0, 0), (9, 9, 9))
        bench.listing()
        top = bench.face(block.top)
        self.assertEqual((bench.close(), bench.close()), (0, 0))
        for call in (bench.undo, bench.listing, bench.faces, bench.page, bench.solids, lambda: top.normal, lambda: bench.volume(1),
                     lambda: bench.ask('list'), lambda: bench.pocket(block.top, [(1, 1, 9), (2, 1, 9), (1, 2, 9)], 1), lambda: bench.half_edges(1)):
            with self.assertRaises(Ended):
                call()
        self.assertEqual((bench.script(), repr(bench)), ('block 1 0 0 0 9 9 9\n', '<Workbench, 1 command held>'))

    def test_paths(self):
        with Workbench(Path(library()), step=STEP) as bench, tempfile.TemporaryDirectory() as folder:
            bench.block((0, 0, 0), (1, 1, 1))
            bench.save(Path(folder) / 'part.gwb')
            with Workbench.load(Path(folder) / 'part.gwb', Path(library())) as again:
                self.assertEqual(again.script(), bench.script())
        for call in (bench.save, Workbench.load):
            for path in (None, 1, b'part'):
                with self.assertRaisesRegex(TypeError, '^path: a path is wanted'):
                    call(path)
        with self.assertRaisesRegex(TypeError, '^library: a path is wanted'):
            Workbench(3)

    def test_it_is_not_copied(self):
        for call in (copy.copy, copy.deepcopy, pickle.dumps):
            with self.assertRaisesRegex(TypeError, 'save'):
                call(self.bench)


class WithoutALibrary(unittest.TestCase):
    """What can be said without one."""

    def test_a_library_that_is_missing(self):
        with self.assertRaisesRegex(ProgramMissing, r'^/nowhere/libgwb.so: .*needs? libgwb\.so$'):
            Workbench('/nowhere/libgwb.so')

    def test_a_library_that_is_another(self):
        with tempfile.TemporaryDirectory() as folder:
            path = Path(folder) / 'other.so'
            path.write_bytes(b'no library')
            with self.assertRaises(ProgramMissing):
                Workbench(str(path))

    def test_what_is_no_library_of_gwb(self):
        for path in ('/bin/true', ctypes.util.find_library('c')):
            self.assertRaisesRegex(ProgramMissing, path, Workbench, path)

    def test_a_library_of_another_version(self):
        with mock.patch('gwb.session.library._MAJOR', 2):
            self.assertRaisesRegex(ProgramMissing, r': version 3\.[0-9]+\.[0-9]+ of the library, where 2 is needed$', Workbench, library())

    def test_the_name_of_a_version(self):
        with tempfile.TemporaryDirectory() as folder:
            path = Path(folder) / 'libgwb.so.3.0.0'
            path.symlink_to(library())
            with mock.patch.dict(os.environ, GWB=str(path)), Workbench() as bench:
                bench.block((0, 0, 0), (1, 1, 1))

    def test_one_that_lies_in_the_package(self):
        with tempfile.TemporaryDirectory() as folder, mock.patch.dict(os.environ, GWB='/nowhere/gwb'):
            package = Path(folder) / 'gwb'
            (package / '_lib').mkdir(parents=True)
            (package / '_lib' / 'libgwb.so').symlink_to(library())
            with mock.patch('gwb.session.library._PACKAGE', package):
                self.assertEqual(find_path(), str(package / '_lib' / 'libgwb.so'))

    def test_refused_memory(self):
        self.assertIsInstance(complaint('undo', Reply(('memory',))), Complaint)
