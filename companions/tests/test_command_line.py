"""The programs as they lie there: help, one line for each error, statuses."""

import subprocess
import sys
import tempfile
import unittest
from pathlib import Path

from support import COMPANIONS, examples, run

from gwb.version import VERSION

LISTING_PROGRAMS = ('check', 'dxf', 'mesh', 'script', 'step', 'svg')
PROGRAMS = (*LISTING_PROGRAMS, 'explain', 'import', 'shell', 'view')


def started(name, *words, data=b'', **files):
    """Runs a program as a process of its own."""
    return subprocess.run([sys.executable, str(COMPANIONS / f'gwb-{name}'), *words], input=data, check=False,
                          stdout=files.get('stdout', subprocess.PIPE), stderr=subprocess.PIPE)


class Programs(unittest.TestCase):
    """Each program."""

    def test_they_run_as_they_lie_there(self):
        replies = examples()[0].with_suffix('.expected')
        for name in LISTING_PROGRAMS:
            ended = started(name, data=replies.read_bytes())
            self.assertEqual((ended.returncode, ended.stderr), (0, b''), name)
            self.assertEqual(ended.stdout.decode(), run(name, str(replies)).out)
        ended = started('explain', str(examples()[0]), data=replies.read_bytes())
        self.assertEqual((ended.returncode, ended.stdout, ended.stderr), (0, b'0 complaints\n', b''))

    def test_help(self):
        for name in PROGRAMS:
            outcome = run(name, '--help')
            self.assertEqual((outcome.status, outcome.err), (0, ''))
            self.assertIn(f'usage: gwb-{name}', outcome.out)
            self.assertIn('Status 0', outcome.out)

    def test_version(self):
        for name in PROGRAMS:
            self.assertEqual(run(name, '--version'), (f'gwb-{name} {VERSION}\n', '', 0))

    def test_lines_that_end_as_on_windows(self):
        script = examples()[0]
        replies = script.with_suffix('.expected')
        with tempfile.TemporaryDirectory() as folder:
            path, windows = Path(folder, 'replies'), Path(folder, 'script')
            path.write_bytes(replies.read_bytes().replace(b'\n', b'\r\n'))
            windows.write_bytes(script.read_bytes().replace(b'\n', b'\r\n'))
            for name in LISTING_PROGRAMS:
                self.assertEqual(run(name, str(path)), run(name, str(replies)))
            for words in ((), ('--annotate',)):
                wanted = run('explain', *words, str(script), str(replies))
                self.assertEqual((wanted.err, wanted.status), ('', 0))
                self.assertEqual(run('explain', *words, str(windows), str(path)), wanted)

    def test_words_that_are_refused(self):
        for name in PROGRAMS:
            outcome = run(name, '--nonsense')
            self.assertEqual((outcome.status, outcome.out), (2, ''))

    def test_input_that_is_refused(self):
        with tempfile.TemporaryDirectory() as folder:
            path = Path(folder, 'input')
            for data in (b'', b'ok\n', b'hello\n', b'solid 1\n', b'\xff\xfe\n', b'solid 1\nface 1 1 1\nloop 1 at 1\nvertex 1 0 0',
                         bytes(range(256)), b'vertex 1 0 0 0\n'):
                path.write_bytes(data)
                for name in LISTING_PROGRAMS:
                    with self.subTest(f'{name} {data!r}'):
                        self.one_line(name, run(name, str(path)))
            path.write_bytes(b'list\n')
            for replies in (b'', b'hello\n', b'ok\n', b'empty\nempty\n'):
                Path(folder, 'replies').write_bytes(replies)
                self.one_line('explain', run('explain', str(path), str(Path(folder, 'replies'))))

    def test_files_that_cannot_be_read(self):
        for name in LISTING_PROGRAMS:
            self.one_line(name, run(name, '/nowhere/listing'))
            self.one_line(name, run(name, '/'))
        self.one_line('explain', run('explain', '/nowhere/script', '/nowhere/replies'))

    def one_line(self, name, outcome):
        self.assertEqual((outcome.status, outcome.out), (3, ''))
        self.assertTrue(outcome.err.startswith(f'gwb-{name}: '), outcome.err)
        self.assertEqual(outcome.err.count('\n'), 1)

    def test_an_output_that_cannot_be_written(self):
        replies = examples()[0].with_suffix('.expected').read_bytes()
        if Path('/dev/full').exists():
            with open('/dev/full', 'wb') as full:
                ended = started('step', data=replies, stdout=full)
            self.assertEqual(ended.returncode, 3)
            self.assertEqual(ended.stderr.count(b'\n'), 1, ended.stderr)

    def test_a_reader_that_goes_away(self):
        replies = examples()[0].with_suffix('.expected')
        ended = subprocess.run(f'"{sys.executable}" "{COMPANIONS}/gwb-step" "{replies}" | true', shell=True, check=False,
                               stderr=subprocess.PIPE)
        self.assertEqual(ended.stderr, b'')
