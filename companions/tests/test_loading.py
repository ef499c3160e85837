"""What `import gwb` loads: forms of files, drawings and the modules that only they need are loaded where they are asked for."""

import subprocess
import sys
import unittest

from support import COMPANIONS

# Whole packages of Python that a session needs for no command. (pathlib loads urllib.parse in some versions.)
UNNEEDED = ('email', 'http', 'socket', 'ssl', 'subprocess', 'tempfile', 'webbrowser', 'xml', 'zipfile')
# What lies beside the forms and is none: colours with names, and numbers as people write them.
NO_FORMS = {'gwb.formats.appearance', 'gwb.formats.exact_numbers'}
MOST = 60


def loaded(code):
    """The modules that are loaded after this code, in a Python of its own."""
    done = subprocess.run([sys.executable, '-c', f'{code}\nimport sys\nprint(*sys.modules, file=sys.stderr)'], cwd=COMPANIONS, check=True,
                          capture_output=True, text=True)
    return set(done.stderr.split())


class Loading(unittest.TestCase):
    """Modules, counted."""

    def test_a_session_loads_no_form(self):
        before, found = loaded(''), loaded('import gwb')
        self.assertEqual({name for name in found - before if name.partition('.')[0] in UNNEEDED or name == 'urllib.request'}, set())
        own = {name for name in found if name.partition('.')[0] == 'gwb'}
        self.assertEqual({name for name in own if name.startswith(('gwb.formats.', 'gwb.drawing'))}, NO_FORMS)
        self.assertLessEqual(len(own), MOST, sorted(own))

    def test_no_program_loads_what_the_net_needs(self):
        for program in ('check', 'importing', 'mesh', 'step', 'script', 'view'):
            with self.subTest(program):
                found = loaded(f'import gwb.programs.{program}') - loaded('')
                self.assertEqual({name for name in found if name in ('urllib.request', 'ssl', 'http.client', 'email')}, set())
