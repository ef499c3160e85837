"""A call that an exception leaves, at whatever place, is whole or has left nothing; threads wait for each other."""

import gc
import inspect
import linecache
import os
import signal
import sys
import threading
import time
import unittest
import weakref
from contextvars import copy_context
from pathlib import Path
from unittest import mock

from support import STEP, as_listed, commands_of, library, opened

import gwb
from gwb import Complaint, Ended, InDraft, InGroup, OutOfStep, Workbench

FOLDER = str(Path(gwb.__file__).parent / 'session')
# The modules in which an exception may come at each line.
TRACED = {f'{FOLDER}/{name}.py' for name in (
    'workbench', 'bench', 'kernel', 'notes', 'library', 'steps', 'turns', 'commands', 'feature_methods',
    'selection', 'solids')}
# Python looks for signals where a call begins or returns: not between a line and the `try:` after it, nor between a block and its `finally`.
NOT_BEFORE = ('try:', 'with suppress(', 'kernel.is_inside, ', 'group_from = outer')
SQUARE = [(5, 5, 20), (15, 5, 20), (15, 15, 20), (5, 15, 20)]


class Left(BaseException):
    """What leaves a call, as KeyboardInterrupt does."""


class Interrupter:
    """Raises Left at the line of this number, counted from the start on, of the modules that are traced."""

    def __init__(self, line):
        self.left, self.has_come = line, False

    def __enter__(self):
        sys.settrace(self.frame)

    def __exit__(self, *_):
        sys.settrace(None)

    def frame(self, frame, event, _):
        return self.line if frame.f_code.co_filename in TRACED else None

    def line(self, frame, event, _):
        if event == 'line' and not self.has_come:
            self.left -= 1
            text = linecache.getline(frame.f_code.co_filename, frame.f_lineno)
            if self.left <= 0 and not any(word in text for word in NOT_BEFORE):
                self.has_come = True
                raise Left
        return self.line


def drafted(bench):
    with bench.draft():
        start = bench.face(3).outer.half_edges[0]
        bench.kemr(bench.mev(start, start, (2, 0, 2)).edge)


def drafted_within(bench):
    """A draft with larger commands, of which one within it is given up."""
    with bench.draft():
        made = bench.block((90, 0, 0), (4, 4, 4))
        try:
            with bench.draft():
                bench.split(made, (0, 0, 1, -2))
                bench.sweep(made.top, (0, 0, 0))
        except Complaint:
            pass
        bench.sweep(made.top, (0, 0, 1))


def grouped(bench):
    with bench.group():
        bench.block((90, 0, 0), (1, 1, 1))
        bench.ring(1, SQUARE)


def united(bench):
    with bench.group():
        bench.union([1, bench.block((20, 0, 0), (4, 20, 20))])


def finer(bench):
    with bench.group():
        block = bench.block((50, 0, 0), (7, 5, 3))
        bench.split(block, (2, 3, 0, -111), refine=True)


CALLS = {
    'block': lambda bench: bench.block((50, 0, 0), (2, 2, 2)), 'mvfs': lambda bench: bench.mvfs((1, 2, 3)),
    'pocket': lambda bench: bench.pocket(1, SQUARE, 3), 'ring': lambda bench: bench.ring(1, SQUARE),
    'hole': lambda bench: bench.hole(1, SQUARE), 'split': lambda bench: bench.split(1, (0, 0, 1, -3)), 'draft': drafted,
    'cut': lambda bench: bench.cut(1, (0, 0, 1, -17)), 'trim': lambda bench: bench.trim(1, (0, 0, 1, -3)),
    'a draft within': drafted_within, 'group': grouped,
    'undo': lambda bench: bench.undo(), 'redo': lambda bench: bench.redo(), 'volume': lambda bench: bench.volume(1),
    'ask': lambda bench: bench.ask('mvfs 77 77 77 77 1 2 3'), 'a line undo': lambda bench: bench.ask('undo'),
    'listing': lambda bench: bench.listing(), 'a refusal': lambda bench: bench.sweep(1, (0, 0, 0)),
    'union': united, 'a finer cut': finer}
# Of calls of many commands fewer lines are tried.
LONG = {'a finer cut': 23}


def prepared():
    """A bench with a pocket and a draft, which two undos take back, and two steps that can be redone."""
    bench = Workbench(library(), step=STEP)
    bench.block((0, 0, 0), (20, 20, 20))
    drafted(bench)
    bench.pocket(1, [(3, 16, 20), (4, 16, 20), (4, 18, 20)], 3)
    bench.block((70, 0, 0), (1, 1, 1))
    drafted(bench)
    bench.undo()
    bench.undo()
    return bench


def tried(call, bench):
    """Gives the call; a refusal is an answer too."""
    try:
        call(bench)
    except Complaint:
        pass


def what_follows(bench):
    """The script, the model and the unit, and all that undo and redo lead to."""
    seen = [bench.script(), bench.listing(), bench.step]
    for word in (bench.redo, bench.undo):
        steps = 0
        while steps < 20:
            try:
                word()
            except Complaint:
                break
            steps += 1
            seen.append((bench.script(), bench.listing(), bench.step))
        seen.append(steps)
    return seen


class Interrupted(unittest.TestCase):
    """INTERRUPTED of the environment may name the share of lines that are tried: 1 for all of them."""

    def test_a_call_left_at_any_line_is_whole_or_leaves_nothing(self):
        share = int(os.environ.get('INTERRUPTED', 100))
        for name, call in CALLS.items():
            with prepared() as bench:
                before = what_follows(bench)
            with prepared() as bench:
                tried(call, bench)
                after = what_follows(bench)
            places, line = 0, 1
            while self.leave(name, call, line, (before, after)):
                places, line = places + 1, line + share * LONG.get(name, 1)
            self.assertGreater(places, 0, name)

    def leave(self, name, call, line, allowed):
        """Whether the call came to the line."""
        with prepared() as bench:
            interrupter = Interrupter(line)
            try:
                with interrupter:
                    tried(call, bench)
            except Left:
                pass
            bench.faces()
            self.assertEqual(as_listed(bench), bench.listing(), (name, line))
            self.assertIn(what_follows(bench), allowed, (name, line))
            return interrupter.has_come

    def test_a_call_left_and_caught_in_a_draft_or_a_group(self):
        for block in ('draft', 'group'):
            with self.subTest(block), Workbench(library(), step=STEP) as bench:
                bench.block((0, 0, 0), (20, 20, 20))
                held = bench.listing()
                with getattr(bench, block)():
                    bench.mvfs((1, 1, 1))
                    with self.assertRaises(Left), Interrupter(20):
                        bench.mvfs((2, 2, 2))
                    bench.mvfs((3, 3, 3))
                self.assertEqual(len(bench.solids()), 3)
                bench.undo()
                self.assertEqual(bench.listing(), held)

    def test_a_call_left_and_caught_in_a_draft_within_another_that_is_given_up(self):
        for line in range(3, 300, 11):
            with self.subTest(line), Workbench(library(), step=STEP) as bench:
                block = bench.block((0, 0, 0), (20, 20, 20))
                held = bench.listing()
                with bench.draft():
                    bench.hole(block.top, SQUARE)
                    made = bench.listing()
                    with self.assertRaises(ZeroDivisionError), bench.draft():
                        bench.block((50, 0, 0), (2, 2, 2))
                        with self.assertRaises(Left), Interrupter(line):
                            bench.split(1, (0, 0, 1, -3))
                            bench.volume(1), bench.pocket(block.top, [(16, 16, 20), (17, 16, 20), (17, 17, 20)], 3)
                        bench.mvfs((3, 3, 3))
                        1 / 0
                    self.assertEqual((bench.listing(), as_listed(bench)), (made, made))
                    bench.mvfs((3, 3, 3))
                self.assertEqual(len(bench.solids()), 2)
                bench.undo()
                self.assertEqual(bench.listing(), held)

    def test_a_draft_left_before_it_is_noted(self):
        class Leaving(list):
            def append(self, _):
                raise Left
        with Workbench(library(), step=STEP) as bench:
            bench._kernel.blocks = Leaving()
            for begin in (bench.draft, bench.group):
                with self.assertRaises(Left), begin():
                    self.fail('it has begun')
            bench._kernel.blocks = []
            bench.block((0, 0, 0), (2, 2, 2))
            bench.undo()

    def test_a_draft_or_a_group_left_at_each_line_of_its_end(self):
        for begin in ('draft', 'group'):
            line = 1
            while copy_context().run(self.leave_at_the_end, begin, line):
                line += 1
            self.assertGreater(line, 20, begin)

    def leave_at_the_end(self, begin, line):
        """Whether the end of a draft or a group came to the line. Calls go on after it."""
        interrupter = Interrupter(line)
        with Workbench(library(), step=STEP) as bench:
            try:
                with getattr(bench, begin)():
                    bench.mvfs((1, 1, 1))
                    interrupter.__enter__()
            except Left:
                pass
            finally:
                interrupter.__exit__()
            made = bench.mvfs((2, 2, 2))
            self.assertIn((made.solid, len(bench.solids())), ((1, 1), (2, 1), (2, 2)), (begin, line))
            bench.undo()
            return interrupter.has_come

    def test_a_group_left_at_its_begin_or_its_end_leaves_what_can_be_redone(self):
        with Workbench(library(), step=STEP) as bench:
            for place in (0, 5):
                bench.block((place, 0, 0), (2, 2, 2))
            bench.undo()
            bench.undo()
            line = 1
            while copy_context().run(self.leave_a_group, bench, line):
                line += 2
            self.assertGreater(line, 60)
            bench.redo()
            bench.redo()
            self.assertEqual(len(bench.solids()), 2)

    def leave_a_group(self, bench, line):
        """Whether a group in which nothing is given came to the line. The model is empty still."""
        interrupter = Interrupter(line)
        try:
            with interrupter, bench.group():
                pass
        except Left:
            pass
        self.assertEqual((commands_of(bench), len(bench.solids())), ([], 0), line)
        return interrupter.has_come

    def test_no_signal_is_lost_where_nothing_refers_to_a_draft_or_a_session(self):
        line, seen = 1, set()
        # (a process in the background may ignore it)
        self.addCleanup(signal.signal, signal.SIGINT, signal.signal(signal.SIGINT, signal.default_int_handler))
        with mock.patch.object(sys, 'unraisablehook') as lost:
            while copy_context().run(self.drop_all, line, seen):
                line += 1
            self.assertEqual(lost.mock_calls, [])
        self.assertLess({'begin_turn', 'end_dropped', 'end', '_unless_kept'}, seen)

    def drop_all(self, line, seen):
        """Whether the line is come to where drafts that nothing refers to any more are ended by the next call, and a session after them. A signal
        comes there."""
        class Signalling(Interrupter):
            def frame(self, frame, event, _):
                return self.line if frame.f_code.co_filename in TRACED | {weakref.__file__, weakref.WeakSet.__init__.__code__.co_filename} else None

            def line(self, frame, event, _):
                try:
                    return super().line(frame, event, _)
                except Left:
                    seen.add(frame.f_code.co_name)
                    signal.raise_signal(signal.SIGINT)
                    return self.line

        bench = Workbench(library(), step=STEP)
        bench.block((0, 0, 0), (2, 2, 2))
        outer, inner, interrupter = bench.draft(), bench.draft(), Signalling(line)
        for block in (outer, inner):
            block.__enter__()
            bench.block((9, 0, 0), (1, 1, 1))
        has_come = False
        try:
            with interrupter:
                block = outer = inner = None
                held = len(bench.solids())
        except KeyboardInterrupt:
            has_come, held = True, len(bench.solids())
        self.assertEqual((has_come, held), (interrupter.has_come, 1), line)
        handle = bench._kernel.lines.handle
        try:
            with interrupter:
                bench = None
                gc.collect()
        except KeyboardInterrupt:
            has_come = True
        self.assertEqual((has_come, handle.is_open), (interrupter.has_come, False), line)
        return has_come

    def test_a_handler_that_gives_a_call_in_a_call(self):
        with Workbench(library(), step=STEP) as bench:
            bench.block((0, 0, 0), (2, 2, 2))
            command = bench._kernel.lines.command

            def within(*given):
                with self.assertRaises(OutOfStep):
                    bench.block((5, 5, 5), (1, 1, 1))
                return command(*given)

            bench._kernel.lines.command = within
            bench.block((9, 0, 0), (1, 1, 1))
            bench._kernel.lines.command = command
            self.assertEqual([bench.volume(solid) for solid in (1, 2)], [8, 1])


class Forked(unittest.TestCase):
    """A process that was forked."""

    def test_it_has_a_session_of_its_own(self):
        with Workbench(library(), step=STEP) as bench:
            bench.block((0, 0, 0), (2, 2, 2))
            process = os.fork()
            if process == 0:
                os._exit(0 if bench.volume(bench.block((9, 0, 0), (1, 1, 1))) == 1 and len(bench.solids()) == 2 else 1)
            self.assertEqual(os.waitpid(process, 0)[1], 0)
            self.assertEqual(len(bench.solids()), 1)

    def test_closing_waits_for_no_child_and_leaves_it_its_session(self):
        bench, (is_closed, tell_closed) = Workbench(library(), step=STEP), os.pipe()
        bench.block((0, 0, 0), (2, 2, 2))
        process = os.fork()
        if process == 0:
            os.read(is_closed, 1)
            os._exit(0 if bench.volume(bench.block((9, 0, 0), (1, 1, 1))) == 1 and len(bench.solids()) == 2 and bench.close() == 0 else 1)
        closing = threading.Thread(target=bench.close, daemon=True)
        closing.start()
        closing.join(60)
        is_waiting = closing.is_alive()
        os.write(tell_closed, b'.')
        self.assertEqual((os.waitpid(process, 0)[1], is_waiting), (0, False))
        self.assertRaises(Ended, bench.solids)
        for end in (is_closed, tell_closed):
            os.close(end)

    def test_a_turn_of_a_thread_that_is_not_in_the_child_ends_its_session_there(self):
        with Workbench(library(), step=STEP) as bench:
            bench.block((0, 0, 0), (2, 2, 2))
            script, has_turn, is_over = bench.script(), threading.Event(), threading.Event()

            def have_turn():
                with bench._kernel.lock:
                    has_turn.set()
                    is_over.wait(60)

            other = threading.Thread(target=have_turn)
            other.start()
            has_turn.wait(60)
            process = os.fork()
            if process == 0:
                signal.alarm(30)    # (which ends it where it hangs)
                try:
                    bench.solids()
                except Ended:
                    os._exit(0 if bench.script() == script else 2)
                os._exit(1)
            is_over.set()
            other.join()
            self.assertEqual(os.waitpid(process, 0)[1], 0)
            self.assertEqual(bench.volume(bench.block((9, 0, 0), (1, 1, 1))), 1)

    def test_a_child_that_closes_leaves_the_session_of_its_parent(self):
        with Workbench(library(), step=STEP) as bench:
            bench.block((0, 0, 0), (2, 2, 2))
            process = os.fork()
            if process == 0:
                os._exit(bench.close())
            self.assertEqual(os.waitpid(process, 0)[1], 0)
            self.assertEqual(bench.volume(bench.block((9, 0, 0), (1, 1, 1))), 1)


def copied_in(bench):
    """How many seconds a copy of solid 1 takes, which is undone."""
    began = time.perf_counter()
    bench.copy(1, move=(0, 0, 100))
    took = time.perf_counter() - began
    bench.undo()
    return took


class Features(unittest.TestCase):
    """A feature that an exception leaves, and what a group doesn't take."""

    def test_a_feature_that_is_left_by_a_keyboard_interrupt(self):
        with Workbench(library(), step=STEP) as bench:
            top = bench.block((0, 0, 0), (400, 400, 20)).top
            for x in range(0, 400, 20):
                for y in range(0, 400, 20):
                    bench.pocket(top, [(x + 5, y + 5, 20), (x + 15, y + 5, 20), (x + 15, y + 15, 20), (x + 5, y + 15, 20)], 3)
            took = min(copied_in(bench) for _ in range(5))
            bench.undo()
            script, model = bench.script(), bench.listing()
            before = signal.signal(signal.SIGALRM, signal.default_int_handler)
            try:
                signal.setitimer(signal.ITIMER_REAL, took / 3)
                with self.assertRaises(KeyboardInterrupt):
                    bench.copy(1, move=(0, 0, 100))
            finally:
                signal.setitimer(signal.ITIMER_REAL, 0)
                signal.signal(signal.SIGALRM, before)
            self.assertEqual((bench.script(), bench.listing()), (script, model))
            bench.redo()
            self.assertEqual(len(bench.face(top).rings), 400)

    def test_what_a_group_does_not_take(self):
        with Workbench(library(), step=STEP) as bench:
            with bench.group():
                bench.block((30, 0, 0), (9, 9, 9))
                for call in (bench.undo, bench.redo, lambda: bench.undo(command=True), lambda: bench.ask('undo')):
                    with self.assertRaises(InGroup):
                        call()
                with bench.draft(), bench.group(), self.assertRaises(InDraft):
                    bench.undo()
            self.assertEqual(len(bench.solids()), 1)


class Threads(unittest.TestCase):
    """Calls of several threads."""

    def setUp(self):
        interval = sys.getswitchinterval()
        self.addCleanup(sys.setswitchinterval, interval)
        sys.setswitchinterval(1e-5)
        self.bench = opened(self)
        self.failed = []

    def run_all(self, work, count=4):
        def guarded(number):
            try:
                work(number)
            except BaseException as error:
                self.failed.append(repr(error))

        threads = [threading.Thread(target=guarded, args=(number,), daemon=True) for number in range(1, count + 1)]
        for thread in threads:
            thread.start()
        for thread in threads:
            thread.join(60)
        self.assertEqual((self.failed, [thread.is_alive() for thread in threads]), ([], [False] * count))

    def test_queries(self):
        for size in range(1, 5):
            self.bench.block((50 * size, 0, 0), (size, size, size))
        wrong = []

        def ask(solid):
            wrong.extend(1 for _ in range(300) if self.bench.volume(solid) != solid ** 3)

        self.run_all(ask)
        self.assertEqual(wrong, [])

    def test_features_and_groups(self):
        def make(number):
            for i in range(5):
                with self.bench.group():
                    block = self.bench.block((100 * number, 100 * i, 0), (20, 20, 20))
                    self.bench.pocket(block.top, [(x + 100 * number, y + 100 * i, z) for x, y, z in SQUARE], 5)
                    assert self.bench.volume(block) == 7500

        self.run_all(make)
        self.assertEqual([self.bench.volume(solid) for solid in self.bench.solids()], [7500] * 20)
        for _ in range(20):
            self.bench.undo()
        self.assertEqual(commands_of(self.bench), [])

    def test_what_things_say_is_whole(self):
        block = self.bench.block((0, 0, 0), (4, 4, 4))
        low = set(self.bench.solid(1).points)
        self.bench.sweep(block.top, (0, 0, 9))
        allowed, seen, is_over = (low, set(self.bench.solid(1).points)), [], threading.Event()
        self.bench.undo()

        def work(number):
            if number == 1:
                rounds = 0
                while rounds < 150 or not seen:    # until others had their turn, also on a busy machine
                    rounds += 1
                    self.bench.sweep(block.top, (0, 0, 9))
                    self.bench.undo()
                    self.bench.block((50, 0, 0), (1, 1, 1))
                is_over.set()
            while not is_over.is_set():
                seen.append(set(self.bench.solid(1).points))
                self.bench.vertices()

        self.run_all(work, 3)
        self.assertGreater(len(seen), 0)
        self.assertEqual([points for points in seen if points not in allowed], [])

    def test_each_public_method_is_a_turn(self):
        for name, method in inspect.getmembers(Workbench, inspect.isfunction):
            if not name.startswith('_'):
                self.assertEqual(method.__code__.co_name, 'taken', name)
