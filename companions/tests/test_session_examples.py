"""The examples in what public methods say of themselves: each has one, and it gives what it shows.

In them `bench` holds the block that `block = bench.block((0, 0, 0), (40, 20, 10))` made, and `folder` is an empty folder."""

import doctest
import os
import unittest
from contextlib import nullcontext
from inspect import getattr_static, isfunction
from unittest import mock

from support import bench_and_folder, library

import gwb
from gwb.session.feature_methods import Sketch
from gwb.session.lengths import DEFAULT_STEP
from gwb.session.reading import Selection
from gwb.session.results import Plane
from gwb.session.solids import Copy

UNDO = gwb.Workbench.undo
CLASSES = (gwb.Workbench, Sketch, Copy, Selection, Plane)


def public(cls):
    """The public methods and properties that a class or those of this package below it has, with what they say, by name."""
    own = [base for base in cls.__mro__ if base.__module__.startswith('gwb.')]
    names = {name for base in own for name in vars(base) if not name.startswith('_')}
    found = {name: getattr_static(cls, name) for name in names}
    return {name: method.__doc__ or '' for name, method in sorted(found.items()) if isfunction(method) or isinstance(method, (property, classmethod))}


def idle(method):
    """In the place of a method one that leaves nothing done."""
    def taken_back(bench, *values, **named):
        if method.__name__ in ('draft', 'group'):
            return nullcontext()
        if not isinstance(bench, gwb.Workbench) or method.__name__ in ('undo', 'redo', 'close', 'label', 'save', 'export', 'show'):
            return None
        before = repr(bench)
        said = method(bench, *values, **named)
        if repr(bench) == before:
            return None
        UNDO(bench)
        return said

    return property(lambda _: None) if isinstance(method, property) else classmethod(lambda *_, **__: None) if isinstance(method, classmethod) else taken_back


class Examples(unittest.TestCase):
    """Each example by itself."""

    def test_each_method_has_one(self):
        seen = 0
        for cls in CLASSES:
            for name, said in public(cls).items():
                with self.subTest(f'{cls.__name__}.{name}'), mock.patch.dict(os.environ, GWB=library()), mock.patch('webbrowser.open'):
                    self.assertIn('>>> ', said)
                    self.run_one(name, said)
                    seen += 1
        self.assertGreater(seen, 100)

    def test_its_answer_would_be_another_if_the_call_did_nothing(self):
        """A call that changes something is taken back at once, and what it says stays; another one isn't made."""
        for cls in CLASSES:
            for name, said in public(cls).items():
                owner = next(base for base in cls.__mro__ if name in vars(base))
                with self.subTest(f'{cls.__name__}.{name}'), mock.patch.object(owner, name, idle(vars(owner)[name])), mock.patch('webbrowser.open'):
                    self.assertRaises(AssertionError, self.run_one, name, said)

    def run_one(self, name, said):
        """Runs the example of a method in a session of its own."""
        bench, folder = bench_and_folder(self, DEFAULT_STEP)
        names = {word: getattr(gwb, word) for word in dir(gwb) if not word.startswith('_')}
        names.update(bench=bench, folder=folder, block=bench.block((0, 0, 0), (40, 20, 10)))
        told = []
        doctest.DocTestRunner(verbose=False).run(doctest.DocTestParser().get_doctest(said, names, name, None, 0), out=told.append)
        self.assertEqual(''.join(told), '')
