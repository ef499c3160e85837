"""The code of docs/PYTHON.md prints what stands beside it, and the page names every method."""

import io
import os
import re
import tempfile
import unittest
from contextlib import contextmanager, redirect_stdout
from unittest import mock

from support import REPOSITORY, library

from gwb import Workbench

PAGE = (REPOSITORY / 'docs' / 'PYTHON.md').read_text()


class Page(unittest.TestCase):
    """Its blocks of code, and its words."""

    def test_the_code(self):
        found = os.path.abspath(library())
        for block in re.findall(r'```python\n(.*?)```', PAGE, re.S):
            printed = io.StringIO()
            with self.in_a_folder(), mock.patch.dict(os.environ, GWB=found), redirect_stdout(printed):
                exec(compile(block, 'PYTHON.md', 'exec'), {})
            self.assertEqual(printed.getvalue().splitlines(), re.findall(r'print\(.*# (.*)', block))

    @contextmanager
    def in_a_folder(self):
        """The files that the code writes go to a folder of their own."""
        before = os.getcwd()
        with tempfile.TemporaryDirectory() as folder:
            os.chdir(folder)
            try:
                yield
            finally:
                os.chdir(before)

    def test_every_method_is_named_and_has_a_docstring(self):
        for name in dir(Workbench):
            if not name.startswith('_'):
                self.assertRegex(PAGE, rf'`((Workbench|bench)\.)?{name}\b', name)
                self.assertTrue(getattr(Workbench, name).__doc__, name)

    def test_a_docstring_sends_to_another_at_most_once(self):
        for name in dir(Workbench):
            for other in re.findall(r'[Rr]efused as `?([a-z_]+)`? is', getattr(Workbench, name).__doc__ or ''):
                self.assertNotRegex(getattr(Workbench, other).__doc__, r'[Rr]efused as', name)
