"""The line that says what a program is at."""

import io
import time
import unittest

import support  # noqa: F401 (puts the package on the path)

from gwb.programs.progress import Progress


class Terminal(io.StringIO):
    """A stream that is a terminal."""

    def isatty(self):
        return True


class Progresses(unittest.TestCase):
    """At a terminal, and elsewhere."""

    def test_it_is_shown_where_work_takes_long(self):
        stream = Terminal()
        with Progress('gwb-import', stream, patience=.01, step=.01) as progress:
            progress.stage('joining faces')
            waited = time.monotonic()
            while 'joining faces, 0 s' not in stream.getvalue() and time.monotonic() - waited < 20:
                time.sleep(.01)
        self.assertIn('\r\x1b[Kgwb-import: joining faces, 0 s', stream.getvalue())
        self.assertTrue(stream.getvalue().endswith('\r\x1b[K'))

    def test_not_where_it_is_short_or_nobody_looks(self):
        for stream, patience in ((Terminal(), 60), (io.StringIO(), 0)):
            with Progress('gwb-import', stream, patience=patience, step=.001):
                time.sleep(.02)
            self.assertEqual(stream.getvalue(), '')

    def test_an_error_goes_through(self):
        stream = Terminal()
        with self.assertRaises(ValueError), Progress('gwb-import', stream, patience=0, step=.001):
            time.sleep(.02)
            raise ValueError
        self.assertTrue(stream.getvalue().endswith('\r\x1b[K'))
