"""The examples of README.md give what it says."""

import io
import os
import re
import unittest
from contextlib import redirect_stdout
from unittest import mock

from support import COMPANIONS, library, scripts

from gwb.programs.explain import complaints, join
from gwb.protocol.replies import split_replies

README = (COMPANIONS / 'README.md').read_text()


def blocks():
    """The indented blocks of the page."""
    return [re.sub('^    ', '', block, flags=re.M) for block in re.findall(r'(?:^    .*\n|^\n(?=    ))+', README, re.M)]


class Readme(unittest.TestCase):
    """Blocks that can be run."""

    def test_what_is_explained(self):
        block = next(block for block in blocks() if 'gwb-explain examples' in block)
        script = next(script for script in scripts() if script.stem == 'refusals')
        joined = join(script.read_bytes(), split_replies(script.with_suffix('.expected').read_bytes()))
        self.assertEqual(block.strip().split('\n')[1:], list(complaints('examples/refusals.gwb', joined)))

    def test_the_session(self):
        block = next(block for block in blocks() if 'Workbench() as' in block)
        printed = io.StringIO()
        with mock.patch.dict(os.environ, GWB=library()), redirect_stdout(printed):
            exec(compile(block, 'README.md', 'exec'), {})
        self.assertEqual(printed.getvalue().splitlines(), re.findall(r'print\(.*# (.*)', block))
