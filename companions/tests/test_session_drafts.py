"""Drafts: their steps are one command, or leave no trace; over the program as over the library."""

import ctypes
import os
import tempfile
import unittest
from random import Random

from support import STEP, as_listed, library, opened

from gwb import Complaint, InDraft, Lone, MemoryRefused, NoDraft, Refused, Unfit, Workbench
from gwb.errors import Ended
from gwb.protocol.language import is_answered

TRIANGLE = [(1, 1, 9), (4, 1, 9), (1, 4, 9)]


class GivenUp(Exception):
    """Thrown to leave a draft."""


def cut(bench):
    """A spur at the top of a block, cut loose: two operators."""
    start = bench.faces(solid=1).top().one().outer.half_edges[0]
    return bench.kemr(bench.mev(start, start, (2, 2, 9)).edge)


class Drafts(unittest.TestCase):
    """Over a block, after which another one can be redone."""

    def setUp(self):
        self.bench = opened(self)
        self.block = self.bench.block((0, 0, 0), (9, 9, 9))
        self.bench.block((20, 0, 0), (1, 1, 1))
        self.bench.undo()
        self.held, self.before = self.bench.listing(), self.bench.script()

    def test_its_steps_are_one_command(self):
        bench = self.bench
        with bench.draft():
            cut(bench)
            cut(bench)
        made, script = bench.listing(), bench.script()
        self.assertEqual(len(made.faces[self.block.top].rings), 2)
        for command in (False, True):
            bench.undo(command=command)
            self.assertEqual(bench.listing(), self.held)
            bench.redo(command=command)
            self.assertEqual((bench.listing(), bench.script()), (made, script))
        with self.assertRaises(Refused):
            bench.redo()

    def test_lines_undo_and_redo_all_of_it(self):
        bench = self.bench
        with bench.draft():
            cut(bench)
        made = bench.listing()
        self.assertEqual((bench.ask('undo').lines, bench.listing()), (('ok',), self.held))
        self.assertEqual((bench.ask('redo').lines, bench.listing()), (('ok',), made))

    def test_what_is_read_is_its_model(self):
        bench = self.bench
        with bench.draft():
            ring = cut(bench)
            self.assertEqual((bench.count(1).vertices, bench.face(self.block.top).rings[0].number), (9, ring))
            self.assertEqual(bench.script().count('\n'), self.before.count('\n') + 2)
            self.assertEqual(bench.listing().faces[self.block.top].rings, (ring,))
            self.assertTrue(bench.plane(self.block.top).flat)
            self.assertEqual(bench.volume(1), 729)
        self.assertEqual(bench.script().count('\n'), self.before.count('\n') + 2)

    def test_what_it_does_not_take(self):
        bench = self.bench
        calls = {'undo': bench.undo, 'redo': bench.redo, 'one undo': lambda: bench.undo(command=True), 'a line undo': lambda: bench.ask('undo'),
                 'a line redo': lambda: bench.ask(' redo ')}
        with bench.draft():
            cut(bench)
            made = bench.listing()
            for name, given in calls.items():
                with self.subTest(name), self.assertRaises(InDraft):
                    given()
                self.assertEqual(bench.listing(), made)
        self.assertEqual(bench.listing(), made)

    def test_what_it_takes(self):
        bench, top = self.bench, self.block.top
        calls = {
            'lamina': lambda: bench.lamina(TRIANGLE), 'block': lambda: bench.block((0, 0, 40), (1, 1, 1)),
            'sweep': lambda: bench.sweep(top, (0, 0, 1)), 'split': lambda: bench.split(1, (0, 0, 1, -2)),
            'glue': lambda: bench.glue(top, bench.block((0, 0, 9), (9, 9, 1)).bottom),
            'profile': lambda: bench.profile(TRIANGLE, along=(0, 0, 1)), 'pocket': lambda: bench.pocket(top, TRIANGLE, 1),
            'boss': lambda: bench.boss(top, TRIANGLE, 1), 'hole': lambda: bench.hole(top, TRIANGLE),
            'drill': lambda: bench.drill(top, (4, 4, 9), 2, 4), 'glue_all': lambda: bench.glue_all([1, bench.block((9, 0, 0), (4, 9, 9))]),
            'finer': lambda: bench.split(1, (2, 0, 0, -7), refine=True), 'trim': lambda: bench.trim(1, (1, 0, 0, -4)),
            'cut': lambda: bench.cut(1, (1, -1, 0, 0), keep='above'), 'notch': lambda: bench.notch(top, [(0, 0, 9), (2, 0, 9), (2, 2, 9)], 1),
            'copy': lambda: bench.copy(1, move=(0, 0, 20)), 'delete': lambda: bench.delete(1), 'scale': lambda: bench.scale(2),
            'pattern': lambda: bench.pattern(1, 2, (20, 0, 0)), 'mirror': lambda: bench.mirror(1, (1, 0, 0, 0)),
            'a line': lambda: bench.ask('block 7 0 0 40 1 1 1'), 'a listing': lambda: bench.ask('list'), 'a fault': lambda: bench.ask('block'),
            'a refusal': lambda: bench.ask('sweep 99 0 0 1')}
        for name, given in calls.items():
            with self.subTest(name):
                with bench.group():
                    given()
                made, script = bench.listing(), bench.script()
                if made != self.held:
                    bench.undo()
                with self.assertRaises(GivenUp), bench.draft():
                    given()
                    raise GivenUp
                self.assertEqual((bench.listing(), bench.script()), (self.held, self.before))
                with bench.draft():
                    given()
                    self.assertEqual((len(bench.listing().faces), as_listed(bench)), (len(made.faces), bench.listing()))
                self.assertEqual((len(bench.listing().faces), bench.script().count('\n')), (len(made.faces), script.count('\n')))
                if made != self.held:
                    bench.undo(command=True)
                self.assertEqual(bench.listing(), self.held)

    def test_a_feature_that_is_refused_in_it(self):
        bench = self.bench
        with bench.draft():
            cut(bench)
            made, script = bench.listing(), bench.script()
            for call in (lambda: bench.intersect([1, bench.block((50, 0, 0), (1, 1, 1))]), lambda: bench.pocket(self.block.bottom, TRIANGLE, 1),
                         lambda: bench.glue_all([1, bench.block((50, 0, 0), (1, 1, 1))])):
                with self.assertRaises(Refused), bench.draft():
                    call()
                self.assertEqual((bench.listing(), bench.script()), (made, script))
        self.assertEqual(bench.listing(), made)

    def test_one_that_ends_before_those_within_it(self):
        outer, inner = self.bench.draft(), self.bench.draft()
        outer.__enter__()
        inner.__enter__()
        cut(self.bench)
        outer.__exit__(None, None, None)
        made = self.bench.listing()
        with self.assertRaises(NoDraft):
            inner.__exit__(None, None, None)
        self.assertEqual(self.bench.listing(), made)

    def test_numbers_after_one_that_was_given_up(self):
        with self.assertRaises(GivenUp), self.bench.draft():
            made = self.bench.mvfs((30, 30, 30))
            raise GivenUp
        self.assertEqual(self.bench.mvfs((30, 30, 30)), tuple(number + 1 for number in made))
        self.assertEqual(self.bench.block((40, 0, 0), (1, 1, 1)).top, made.face + 2)

    def test_a_session_that_is_closed_in_it(self):
        with self.assertRaises(Ended), self.bench.draft():
            cut(self.bench)
            self.bench.close()

    def forget_a_vertex(self):
        """Leaves a vertex without an edge that can be redone."""
        self.script = self.bench.script()
        self.bench.mvfs((30, 0, 0))
        self.both = self.bench.listing()
        self.bench.undo()

    def half_has_left_no_trace(self):
        self.assertEqual((self.bench.listing(), self.bench.script()), (self.held, self.before))
        self.bench.redo()
        self.assertEqual(self.bench.listing(), self.both)

    def row(self):
        """Three blocks in a row, which two gluings join, and one that none joins with them."""
        return [self.block, *(self.bench.block((9 * place, 0, 0), (9, 9, 9)) for place in (1, 2, 4))]

    def refuse_row(self, row):
        """The blocks aren't glued."""
        with self.assertRaises(Refused) as caught:
            self.bench.glue_all(row)
        self.assertEqual((caught.exception.name, caught.exception.value), ('NoMatch', row[-1].solid))

    def test_a_chain_that_is_refused_half_way_leaves_no_trace(self):
        row, self.held, self.before = self.row(), self.bench.listing(), self.bench.script()
        self.forget_a_vertex()
        self.refuse_row(row)
        self.half_has_left_no_trace()

    def test_a_chain_that_is_refused_half_way_leaves_its_draft_open(self):
        bench, row = self.bench, self.row()
        with bench.draft():
            bench.pocket(self.block.top, TRIANGLE, 2)
            made = bench.listing()
            self.refuse_row(row)
            self.assertEqual(bench.listing(), made)
            cut(bench)
        self.assertEqual(len(bench.face(self.block.top).rings), 2)

    def test_a_feature_of_larger_commands_that_is_refused_half_way_leaves_no_trace(self):
        bench = self.bench
        start = bench.face(self.block.top).outer.half_edges[0]
        bench.mev(start, start, (8, 8, 9), edge=999_998)
        self.held, self.before = bench.listing(), bench.script()
        self.forget_a_vertex()
        with self.assertRaises(Refused) as caught:
            self.bench.pocket(self.block.bottom, [(1, 1, 0), (1, 4, 0), (4, 1, 0)], 2)
        self.assertEqual(caught.exception.name, 'NumbersSpent')
        self.half_has_left_no_trace()


class Heap(ctypes.Structure):
    """A heap of libgwb.so: that of the C library, of which one request is refused, counted from 0 on."""

    TAKEN = ctypes.PYFUNCTYPE(ctypes.c_void_p, ctypes.c_void_p, ctypes.c_size_t)
    CHANGED = ctypes.PYFUNCTYPE(ctypes.c_void_p, ctypes.c_void_p, ctypes.c_void_p, ctypes.c_size_t)
    RELEASED = ctypes.PYFUNCTYPE(None, ctypes.c_void_p, ctypes.c_void_p)
    _fields_ = [('allocate', TAKEN), ('reallocate', CHANGED), ('release', RELEASED), ('user', ctypes.c_void_p)]

    def __init__(self):
        system = ctypes.CDLL(None)
        for name, words in (('malloc', [ctypes.c_size_t]), ('realloc', [ctypes.c_void_p, ctypes.c_size_t]), ('free', [ctypes.c_void_p])):
            getattr(system, name).argtypes, getattr(system, name).restype = words, None if name == 'free' else ctypes.c_void_p
        self.requests, self.refused = 0, None
        super().__init__(self.TAKEN(lambda _, size: self.taken(system.malloc, size)),
                         self.CHANGED(lambda _, block, size: self.taken(system.realloc, block, size)),
                         self.RELEASED(lambda _, block: system.free(block)), None)

    def taken(self, take, *words):
        self.requests += 1
        return None if self.requests - 1 == self.refused else take(*words)


class OutOfMemory(unittest.TestCase):
    """Each request for memory in a draft is refused in turn: what was refused leaves no trace, and is given again, or the draft is given up by it."""

    CALLS = (lambda bench: bench.mvfs((30, 0, 0)), lambda bench: bench.block((20, 0, 0), (4, 4, 4)), lambda bench: bench.pocket(1, TRIANGLE, 2),
             lambda bench: bench.split(1, (0, 0, 1, -4)), lambda bench: bench.copy(1, move=(0, 30, 0)), lambda bench: bench.delete(1))

    def setUp(self):
        use_heap, self.heap = ctypes.PyDLL(library()).gwb_use_heap, Heap()
        use_heap.argtypes, use_heap.restype = [ctypes.c_void_p], ctypes.c_void_p
        self.addCleanup(use_heap, use_heap(ctypes.addressof(self.heap)))

    def test_each_request_is_refused_in_turn(self):
        for is_caught in (True, False):
            request = told = 0
            while self.heap.requests >= request:
                told, request = told + self.is_told(request, is_caught), request + 1
            self.assertGreater(told, 5, is_caught)

    def is_told(self, request, is_caught):
        """Whether a call was refused memory by a request that is refused."""
        refusals = 0
        with Workbench(library(), step=STEP) as bench:
            bench.block((0, 0, 0), (9, 9, 9))
            held, script = bench.listing(), bench.script()
            self.heap.requests, self.heap.refused = 0, request
            try:
                with bench.draft():
                    for call in self.CALLS:
                        before = bench.listing()
                        try:
                            call(bench)
                        except MemoryRefused:
                            refusals += 1
                            self.assertEqual((bench.listing(), as_listed(bench)), (before, before))
                            if not is_caught:
                                raise
                            call(bench)
            except MemoryRefused:
                self.assertEqual((bench.listing(), bench.script()), (held, script))
            else:
                self.assertEqual(len(bench.solids()), 4)
            self.heap.refused = None
        return refusals > 0


class RandomDrafts(unittest.TestCase):
    """Random commands, drafts, groups, undos and redos, beside a list of all models. RANDOM_DRAFTS of the environment may name how many."""

    def test_random_drafts(self):
        for seed in range(int(os.environ.get('RANDOM_DRAFTS', 400)) // 40):
            with Workbench(library(), step=STEP) as bench:
                self.play(bench, Random(seed), seed)

    def play(self, bench, random, seed):
        bench.block((0, 0, 0), (9, 9, 9))
        bench.mvfs((0, 0, 0))
        past, at = [bench.listing()], 0
        for turn in range(40):
            call = random.choice((self.command, self.drafted, self.drafted, self.given_up, self.grouped, self.undo, self.undo, self.redo))
            moved = call(bench, random, at, len(past))
            if moved is None:
                continue
            if moved == 0:
                del past[at + 1:]
                past.append(bench.listing())
            at += moved or 1
            self.assertEqual(bench.listing(), past[at], (seed, turn, call.__name__))
            if random.random() < 0.2:
                self.assertEqual(as_listed(bench), past[at], (seed, turn, call.__name__))

    def operator(self, bench, random):
        """One operator, or a ring: whether it was accepted."""
        try:
            solid = bench.mvfs((random.randrange(9), 0, 0)) if random.random() < 0.5 else None
            if solid is None or random.random() < 0.3:
                bench.ring(1, [(1, 1, 9), (8, 1, 9), (1, 8, 9)])
            else:
                bench.mev(Lone(solid.loop), Lone(solid.loop), (1, 1, random.choice((1, 10 ** 9 + 1))))
        except Complaint:
            return solid is not None
        return True

    def command(self, bench, random, *_):
        bench.block((random.randrange(99), 20, 0), (1, 1, 1))
        return 0

    def drafted(self, bench, random, *_):
        with bench.draft():
            accepted = [self.operator(bench, random) for _ in range(random.randrange(4))]
        return 0 if any(accepted) else None

    def grouped(self, bench, random, *_):
        """A group of commands and drafts, and of a group that is given up."""
        accepted = []
        with bench.group():
            for _ in range(random.randrange(4)):
                call = random.choice((self.command, self.drafted, self.grouped, self.group_given_up))
                accepted.append(call(bench, random) == 0)
        return 0 if any(accepted) else None

    def group_given_up(self, bench, random):
        before = bench.listing()
        with self.assertRaises(GivenUp), bench.group():
            self.grouped(bench, random)
            raise GivenUp
        self.assertEqual(bench.listing(), before)

    def given_up(self, bench, random, at, count):
        before = bench.listing()
        if random.random() < 0.5:
            self.group_given_up(bench, random)
        else:
            with self.assertRaises(GivenUp), bench.draft():
                for _ in range(random.randrange(4)):
                    self.operator(bench, random)
                raise GivenUp
        self.assertEqual(bench.listing(), before)
        self.redo(bench, random, at, count)
        if at + 1 < count:
            bench.undo()
        self.assertEqual(bench.listing(), before)

    def undo(self, bench, _, at, __):
        if at == 0:
            return None
        bench.undo()
        return -1

    def redo(self, bench, _, at, count):
        if at + 1 == count:
            with self.assertRaises(Refused):
                bench.redo()
            return None
        bench.redo()
        return 1


class RandomLargerDrafts(unittest.TestCase):
    """Random operators, larger commands and features in drafts within drafts, some of them given up: what is given up leaves no trace, what is
    left is what the same lines make one by one, and one command. RANDOM_DRAFTS of the environment may name how many drafts."""

    def test_random_drafts_with_larger_commands(self):
        for seed in range(int(os.environ.get('RANDOM_DRAFTS', 400)) // 20):
            with Workbench(library(), step=STEP) as self.bench:
                self.random, self.seed = Random(seed), seed
                self.bench.block((0, 0, 0), (8, 8, 8))
                for _ in range(5):
                    self.one_command()
                self.replayed()

    def one_command(self):
        bench, before = self.bench, self.bench.listing()
        with bench.draft():
            self.steps(0)
        made = bench.listing()
        if made != before:
            bench.undo(command=True)
            self.require(before)
            bench.redo()
        self.require(made)
        with self.assertRaises(Refused):
            bench.redo()
        self.require(made)

    def steps(self, depth):
        """Some steps of a draft."""
        calls = [self.operator, self.larger, self.feature] + [self.within, self.given_up] * (depth < 3)
        for _ in range(self.random.randrange(5)):
            if not self.bench.solids():
                self.bench.block((0, 0, 0), (8, 8, 8))
            before = self.bench.listing()
            try:
                with self.bench.draft():
                    self.random.choice(calls)(depth)
            except (Complaint, Unfit):
                self.require(before)

    def require(self, model):
        self.assertEqual((self.bench.listing(), as_listed(self.bench)), (model, model), self.seed)

    def within(self, depth):
        with self.random.choice((self.bench.draft, self.bench.group))():
            self.steps(depth + 1)

    def given_up(self, depth):
        before, script = self.bench.listing(), self.bench.script()
        with self.assertRaises(GivenUp), self.random.choice((self.bench.draft, self.bench.group))():
            self.steps(depth + 1)
            raise GivenUp
        self.require(before)
        self.assertEqual(self.bench.script(), script)

    def operator(self, _):
        bench, random = self.bench, self.random
        face = random.choice(bench.faces())
        if random.random() < .5:
            bench.mvfs((random.randrange(9), 50, 0))
        elif face.outer.half_edges:
            half = random.choice(face.outer.half_edges)
            bench.kemr(bench.mev(half, half, face.points[0]).edge)

    def larger(self, _):
        bench, random = self.bench, self.random
        x, y, size = (random.choice((0, 8, 16)), random.choice((0, 8)), random.choice((4, 8)))
        face, solid = random.choice(bench.faces()), random.choice(bench.solids())
        random.choice((
            lambda: bench.block((x, y, 20), (size, 8, 8)), lambda: bench.lamina([(x, y, 0), (x + size, y, 0), (x, y + size, 0)]),
            lambda: bench.sweep(face, [2 * (part > 0) - 2 * (part < 0) for part in face.normal]),
            lambda: bench.glue(face, random.choice(bench.faces())), self.glued, lambda: bench.split(solid, (1, 0, 0, -x - 2)),
            lambda: bench.split(solid, (1, -1, 0, 0)), lambda: bench.split(solid, (0, 2, 3, -17), refine=True),
            lambda: bench.ask(f'split {solid.number} 0 0 1 -{size} {random.randrange(50, 99)}'), lambda: bench.ask(f'sweep {face.number} 0 0 {x}')))()

    def glued(self):
        """Two blocks are glued, cut in two, and glued again."""
        lower, upper = (self.bench.block((0, 0, z), (8, 8, 4)) for z in (80, 84))
        self.bench.glue(lower.top, upper.bottom)
        made = self.bench.split(lower, (1, 1, 0, -self.random.randrange(4, 12)))
        self.bench.glue(made.lower_caps[0], made.upper_caps[0])

    def feature(self, _):
        bench, random = self.bench, self.random
        face, solid, other = random.choice(bench.faces()), random.choice(bench.solids()), bench.block((0, 0, 60), (8, 8, 8)).solid
        face = face if len(face.points) > 2 else bench.faces(solid=other).top().one()
        first, *_, last = points = face.points
        low = random.randrange(3)
        random.choice((
            lambda: bench.pocket(face, [tuple((part + 3 * other) // 4 for part, other in zip(point, points[low - 3])) for point in points], 1),
            lambda: bench.hole(face, [tuple((part + other) // 2 for part, other in zip(point, last)) for point in points]),
            lambda: bench.notch(face, [first, points[1], last], 1), lambda: bench.delete(solid), lambda: bench.copy(solid, move=(0, 0, 30)),
            lambda: bench.mirror(solid, (1, 0, 0, 0)), lambda: bench.trim(solid, (1, 1, 0, -8)), lambda: bench.cut(solid, (0, 1, 0, -4)),
            lambda: bench.union([solid, other]), lambda: bench.ring(face, [points[0], points[1], last])))()

    def replayed(self):
        """The lines one by one, and what was saved, make the same."""
        made, script = self.bench.listing(), self.bench.script()
        with Workbench(library(), step=STEP) as other, tempfile.TemporaryDirectory() as folder:
            for line in filter(is_answered, script.encode().splitlines()):
                self.assertEqual(other.ask(line.decode()).lines, ('ok',), (self.seed, line))
            self.assertEqual(other.listing(), made, self.seed)
            self.bench.save(f'{folder}/part.gwb')
            with Workbench.load(f'{folder}/part.gwb', library()) as again:
                self.assertEqual((again.listing(), again.script()), (made, script), self.seed)
