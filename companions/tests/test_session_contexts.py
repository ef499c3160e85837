"""Whose a draft is: that of the task or thread that began it, or of the function whose `with` holds it."""

import asyncio
import gc
import tempfile
import threading
import unittest
from contextlib import ExitStack
from pathlib import Path

from support import library, opened, step_of

from gwb import OutOfStep, Refused, Workbench


class GivenUp(Exception):
    """Thrown to leave a draft."""


class Contexts(unittest.TestCase):
    """A bench with a block, and what is made of it in tasks, threads and generators."""

    def setUp(self):
        self.bench = opened(self, step_of(self, 'test_a_workbench_that_is_closed_in_another_task'))
        self.bench.block((0, 0, 0), (2, 2, 2))

    def in_thread(self, act):
        """Runs it in a thread of its own: what it raised, or None. It ends within some seconds."""
        raised = []

        def run():
            try:
                act()
            except BaseException as error:
                raised.append(error)
        thread = threading.Thread(target=run, daemon=True)
        thread.start()
        thread.join(10)
        self.assertFalse(thread.is_alive())
        return next(iter(raised), None)

    def drafted(self):
        """A generator that holds a draft."""
        with self.bench.draft():
            self.bench.block((10, 0, 0), (1, 1, 1))
            yield
            self.bench.block((20, 0, 0), (1, 1, 1))

    def is_free(self):
        """Another thread can give a call."""
        self.assertIsNone(self.in_thread(lambda: self.bench.undo() or self.bench.redo()))

    def forgets(self):
        """Begins a draft in a way that nobody ends it."""
        stack = ExitStack()
        stack.enter_context(self.bench.draft())
        self.bench.block((10, 0, 0), (1, 1, 1))

    def test_a_draft_ends_that_a_function_forgot(self):
        for forget in (self.forgets, lambda: self.in_thread(self.forgets)):
            forget()
            self.assertEqual(self.bench.solids().numbers, (1,))
            self.is_free()

    def test_a_draft_goes_on_that_is_kept_when_its_function_has_ended(self):
        draft = self.bench.draft()
        (lambda: draft.__enter__())()
        self.bench.block((10, 0, 0), (1, 1, 1))
        draft.__exit__(None, None, None)
        self.bench.undo()
        self.assertEqual(self.bench.solids().numbers, (1,))

    def test_a_task_has_no_part_in_the_draft_of_another(self):
        async def first(is_open, is_over):
            with self.assertRaises(GivenUp), self.bench.draft():
                self.bench.block((10, 0, 0), (1, 1, 1))
                is_open.set()
                await is_over.wait()
                raise GivenUp

        async def second(is_open, is_over):
            await is_open.wait()
            for call in (lambda: self.bench.block((50, 0, 0), (1, 1, 1)), self.bench.listing, self.bench.undo, self.bench.draft):
                self.assertRaisesRegex(OutOfStep, '^another task of this thread has a draft or a group open$', call)
            is_over.set()

        async def both():
            is_open, is_over = asyncio.Event(), asyncio.Event()
            await asyncio.gather(first(is_open, is_over), second(is_open, is_over))
            self.bench.block((60, 0, 0), (3, 3, 3))

        asyncio.run(both())
        self.assertEqual([self.bench.volume(solid) for solid in self.bench.solids()], [8, 27])
        self.is_free()

    def test_tasks_that_are_begun_in_a_draft_are_part_of_it(self):
        async def block(x):
            await asyncio.sleep(0)
            self.bench.block((x, 0, 0), (1, 1, 1))

        async def all_of_them():
            with self.bench.draft():
                await asyncio.gather(block(10), block(20), asyncio.to_thread(lambda: self.bench.block((30, 0, 0), (1, 1, 1))))

        asyncio.run(all_of_them())
        self.assertEqual(len(self.bench.solids()), 4)
        self.bench.undo()
        self.assertEqual(len(self.bench.solids()), 1)
        self.is_free()

    def test_a_draft_that_another_thread_goes_on_with(self):
        going = self.drafted()
        next(going)
        self.assertIsInstance(self.in_thread(lambda: next(going)), StopIteration)
        self.assertEqual(len(self.bench.solids()), 3)
        self.is_free()
        self.bench.undo()
        self.assertEqual(len(self.bench.solids()), 1)

    def test_a_draft_that_another_thread_closes_or_collects(self):
        for leave in (lambda going: going[0].close(), lambda going: going.clear() or gc.collect()):
            going = [self.drafted()]
            next(going[0])
            self.assertIsNone(self.in_thread(lambda: leave(going)))
            self.assertEqual(len(self.bench.solids()), 1)
            self.is_free()

    def test_a_draft_whose_thread_has_ended(self):
        going = self.drafted()
        self.assertIsNone(self.in_thread(lambda: next(going)))
        with self.assertRaisesRegex(OutOfStep, '^a draft or a group is open, whose thread has ended$'):
            self.bench.block((50, 0, 0), (1, 1, 1))
        going.close()
        self.assertEqual(len(self.bench.solids()), 1)
        self.is_free()

    def test_other_threads_wait_for_its_end(self):
        seen, is_asked = [], threading.Event()

        def ask():
            is_asked.set()
            seen.append(len(self.bench.solids()))
        with self.bench.draft():
            thread = threading.Thread(target=ask, daemon=True)
            thread.start()
            is_asked.wait()
            self.bench.block((10, 0, 0), (1, 1, 1))
            self.assertEqual(seen, [])
        thread.join(10)
        self.assertEqual(seen, [2])

    def test_one_is_begun_once(self):
        for block in (self.bench.draft(), self.bench.group()):
            with block:
                self.bench.block((10, 0, 0), (1, 1, 1))
                self.assertRaisesRegex(RuntimeError, '^a draft or a group is begun once', block.__enter__)
            self.assertRaisesRegex(RuntimeError, '^a draft or a group is begun once', block.__enter__)
            self.bench.undo()
        self.is_free()

    def test_one_that_nobody_ends(self):
        block = self.bench.draft()
        block.__enter__()
        self.bench.block((10, 0, 0), (1, 1, 1))
        del block
        self.assertEqual(len(self.bench.solids()), 1)
        self.is_free()

    def test_a_workbench_that_is_closed_in_another_task(self):
        async def closing():
            with self.assertRaises(GivenUp), self.bench.draft():
                self.bench.close()
                raise GivenUp

        asyncio.run(closing())
        self.assertRaises(Exception, self.bench.volume, 1)
        self.assertEqual(self.bench.script(), 'block 1 0 0 0 2 2 2\n')


class Labels(unittest.TestCase):
    """Labels go with the command after which they were given."""

    def setUp(self):
        self.bench = opened(self)
        self.base = self.bench.block((0, 0, 0), (9, 9, 9))
        self.bench.label(self.bench.face(self.base.top), 'base')

    def names(self):
        """The names by kind and number."""
        return {thing: look.name for thing, look in self.bench.labels.items()}

    def test_what_gets_a_number_anew_has_no_label(self):
        held = self.names()
        red = self.bench.block((20, 0, 0), (5, 5, 5))
        self.bench.label(self.bench.face(red.top), 'hot', '#FF0000')
        self.bench.label(self.bench.solid(red), 'red')
        self.bench.undo()
        self.assertEqual(self.names(), held)
        self.bench.redo()
        self.assertEqual(self.names(), {**held, ('face', red.top): 'hot', ('solid', red.solid): 'red'})
        self.bench.undo()
        new = self.bench.block((20, 50, 0), (9, 9, 9))
        self.assertEqual((new.top, self.names()), (red.top, held))

    def test_what_is_deleted_has_none_and_undo_gives_it_again(self):
        held = self.names()
        self.bench.delete(self.base)
        self.assertEqual(self.names(), {})
        again = self.bench.block((20, 0, 0), (1, 1, 1), solid=self.base.solid)
        self.assertEqual((again.top, self.names()), (self.base.top, {}))
        self.bench.undo()
        self.bench.undo()
        self.assertEqual(self.names(), held)

    def test_nor_after_what_changes_nothing(self):
        for between in (lambda: self.bench.ask('volume 99'), lambda: self.bench.ask('block 1 0 0 0 0 0 0'), lambda: self.bench.ask('no command')):
            self.bench.delete(self.base)
            between()
            self.assertEqual(self.bench.block((20, 0, 0), (1, 1, 1), solid=self.base.solid).top, self.base.top)
            self.assertEqual(self.names(), {})
            self.bench.undo()
            self.bench.undo()
            self.assertEqual(list(self.names().values()), ['base'])

    def test_nor_after_a_draft_that_is_given_up(self):
        self.bench.delete(self.base)
        with self.assertRaises(GivenUp), self.bench.draft():
            self.bench.block((20, 0, 0), (1, 1, 1))
            raise GivenUp
        self.assertEqual(self.bench.block((20, 0, 0), (1, 1, 1), solid=self.base.solid).top, self.base.top)
        self.assertEqual(self.names(), {})

    def test_a_refusal_takes_none(self):
        self.bench.delete(self.base)
        self.assertRaises(Refused, self.bench.block, (0, 0, 0), (0, 0, 0))
        self.bench.undo()
        self.assertEqual(list(self.names().values()), ['base'])

    def test_what_is_moved_keeps_it(self):
        held = self.names()
        for act in (lambda: self.bench.move(self.base, (5, 0, 0)), lambda: self.bench.turn(self.base, 'z'), lambda: self.bench.scale(2)):
            act()
            self.assertEqual(self.names(), held)
            self.bench.block((90, 0, 0), (1, 1, 1))
            self.assertEqual(self.names(), held)
            self.bench.undo()
            self.bench.undo()

    def test_drafts_and_groups_take_them_back(self):
        held = self.names()
        for block in (self.bench.draft, self.bench.group):
            with self.assertRaises(GivenUp), block():
                self.bench.label(self.bench.solid(self.base), 'one')
                new = self.bench.block((20, 0, 0), (5, 5, 5))
                self.bench.label(self.bench.face(new.top), 'two')
                with self.assertRaises(GivenUp), block():
                    self.bench.label(self.bench.face(new.bottom), 'three')
                    self.bench.block((40, 0, 0), (5, 5, 5))
                    raise GivenUp
                self.assertEqual(sorted(self.names().values()), ['base', 'one', 'two'])
                raise GivenUp
            self.assertEqual(self.names(), held)

    def test_a_draft_is_one_command_with_its_labels(self):
        held = self.names()
        with self.bench.draft():
            new = self.bench.block((20, 0, 0), (5, 5, 5))
            self.bench.label(self.bench.face(new.top), 'new')
        made = self.names()
        self.assertEqual(sorted(made.values()), ['base', 'new'])
        self.bench.undo()
        self.assertEqual(self.names(), held)
        self.bench.redo()
        self.assertEqual(self.names(), made)
        with self.bench.draft():
            self.bench.label(self.bench.solid(self.base), 'alone')
        self.assertEqual(self.names(), {**made, ('solid', self.base.solid): 'alone'})

    def test_what_is_labelled_first_in_a_group_goes_with_it(self):
        held = self.names()
        for block in (self.bench.draft, self.bench.group):
            with block():
                self.bench.label(self.bench.solid(self.base), 'one')
                with self.assertRaises(GivenUp), self.bench.group():
                    self.bench.label(self.bench.face(self.base.bottom), 'not')
                    self.bench.block((40, 0, 0), (5, 5, 5))
                    raise GivenUp
                with self.bench.group():
                    self.bench.label(self.bench.face(self.base.bottom), 'two')
                    new = self.bench.block((20, 0, 0), (5, 5, 5))
                self.bench.label(self.bench.face(new.top), 'three')
                self.bench.move(new, (3, 0, 0))
            made = self.names()
            self.assertEqual(sorted(made.values()), ['base', 'one', 'three', 'two'])
            self.bench.undo()
            self.assertEqual(self.names(), held)
            self.bench.redo()
            self.assertEqual(self.names(), made)
            self.bench.undo()
        with self.bench.group():
            self.bench.label(self.bench.solid(self.base), 'alone')
        self.assertEqual(sorted(self.names().values()), ['alone', 'base'])
        self.bench.undo()
        self.assertEqual(self.names(), {})

    def test_a_label_given_after_an_undo(self):
        new = self.bench.block((20, 0, 0), (5, 5, 5))
        self.bench.label(self.bench.face(new.top), 'new')
        self.bench.label(self.bench.face(self.base.top), 'changed')
        self.bench.undo()
        self.assertEqual(list(self.names().values()), ['base'])
        self.bench.label(self.bench.face(self.base.bottom), 'low')
        self.bench.redo()
        self.assertEqual(sorted(self.names().values()), ['changed', 'low', 'new'])
        self.bench.undo()
        self.assertEqual(sorted(self.names().values()), ['base', 'low'])
        self.bench.undo()
        self.assertEqual(self.names(), {})

    def test_what_a_script_was_saved_with(self):
        with tempfile.TemporaryDirectory() as folder:
            path = Path(folder) / 'part.gwb'
            self.bench.delete(self.bench.block((20, 0, 0), (5, 5, 5)))
            self.bench.save(path)
            with Workbench.load(path, library()) as again:
                self.assertEqual(dict(again.labels), dict(self.bench.labels))
                again.undo()
                self.assertEqual(dict(again.labels), dict(self.bench.labels))
                again.undo(), again.undo()
                self.assertEqual(dict(again.labels), {})
                self.assertEqual((len(again.solids()), again.ask('block 1 0 0 0 0 0 0').word), (0, 'refused'))
                again.redo()
                self.assertEqual(dict(again.labels), dict(self.bench.labels))
                again.undo()
                again.block((0, 0, 0), (1, 1, 1))
                self.assertEqual(dict(again.labels), {})
