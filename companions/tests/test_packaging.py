"""The package is built as `pip install` does it, and nothing is left in the folder; its folders stand one on the other."""

import os
import re
import shutil
import subprocess
import sys
import unittest
from importlib.util import find_spec
from pathlib import Path
from zipfile import ZipFile

from support import COMPANIONS, folder_of

from gwb.version import VERSION

BUILD = '''
import sys
sys.path.insert(0, '.')
sys.dont_write_bytecode = True
import building
print(getattr(building, f'build_{sys.argv[1]}')(sys.argv[2]))
'''


def files_in(folder):
    """The files of a folder."""
    return sorted(str(path.relative_to(folder)) for path in folder.rglob('*'))


class Packaging(unittest.TestCase):
    """The wheel."""

    def setUp(self):
        if not (find_spec('setuptools') and find_spec('wheel')):
            self.skipTest('needs setuptools and wheel')
        self.folder = folder_of(self)
        self.tree = Path(shutil.copytree(COMPANIONS, self.folder / 'companions', ignore=shutil.ignore_patterns('__pycache__')))

    def put(self, place, data):
        """Puts a library at a place beside the folder."""
        (self.folder / place).mkdir(parents=True)
        (self.folder / place / 'libgwb.so').write_bytes(data)

    def wheel(self, kind='wheel', **environment):
        """The wheel that is built, after which the folder is as it was."""
        before = files_in(self.tree)
        built = subprocess.run([sys.executable, '-c', BUILD, kind, self.folder], cwd=self.tree, capture_output=True, text=True, env={**os.environ, **environment})
        self.assertEqual(built.returncode, 0, built.stderr)
        self.assertEqual(files_in(self.tree), before)
        return ZipFile(self.folder / built.stdout.splitlines()[-1])

    def test_the_wheel_without_the_library_holds_the_package(self):
        wheel = self.wheel(GWB_WITHOUT_LIBRARY='1')
        self.assertTrue(wheel.filename.endswith(f'gwb-{VERSION}-py3-none-any.whl'), wheel.filename)
        package = [str(path.relative_to(COMPANIONS)) for path in (COMPANIONS / 'gwb').rglob('*') if path.is_file() and path.parent.name != '__pycache__']
        self.assertEqual(sorted(name for name in wheel.namelist() if name.startswith('gwb/')), sorted(package))

    def test_without_a_library_nothing_is_built_and_make_try_is_named(self):
        built = subprocess.run([sys.executable, '-c', BUILD, 'wheel', self.folder], cwd=self.tree, capture_output=True, text=True)
        self.assertEqual(built.returncode, 1)
        self.assertRegex(built.stderr, '`make try` .*GWB_WITHOUT_LIBRARY=1')

    def test_the_wheel_carries_a_proved_library_before_an_unproved_one(self):
        self.put('out/unproved', b'unproved')
        wheel = self.wheel()
        self.assertRegex(wheel.filename, rf'/gwb-{VERSION}\+unproved-py3-none-(?!any)[a-z0-9_]+[.]whl$')
        self.assertEqual(wheel.read('gwb/_lib/libgwb.so'), b'unproved')
        self.put('bindings/out', b'proved\0gwb_proved\0')
        wheel = self.wheel()
        self.assertRegex(wheel.filename, rf'/gwb-{VERSION}-py3-none-(?!any)[a-z0-9_]+[.]whl$')
        self.assertEqual(wheel.read('gwb/_lib/libgwb.so'), b'proved\0gwb_proved\0')

    def test_an_editable_wheel_leads_to_the_folder(self):
        self.put('out/unproved', b'unproved')
        wheel = self.wheel('editable')
        self.assertEqual(wheel.read('gwb.pth').decode(), f'{self.tree}\n')
        self.assertEqual([name for name in wheel.namelist() if name.startswith('gwb/')], [])
        record = wheel.read(f'gwb-{VERSION}+unproved.dist-info/RECORD').decode().splitlines()
        self.assertEqual(sorted(line.split(',')[0] for line in record), sorted(wheel.namelist()))


class Folders(unittest.TestCase):
    """The folders of the package, in the order of the README."""

    ORDER = ('geometry', 'protocol', 'checks', 'scripts', 'joining', 'formats', 'drawing', 'session', 'programs')

    def test_each_uses_those_before_it_alone(self):
        for path in (COMPANIONS / 'gwb').glob('*/*.py'):
            used = set(re.findall(r'^from \.\.([a-z]+)[. ]', path.read_text(), re.M)) - {'errors', 'meanings', 'refusals', 'version'}
            with self.subTest(path=path):
                self.assertLessEqual(used, set(self.ORDER[:self.ORDER.index(path.parent.name)]))
