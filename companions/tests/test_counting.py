"""How tests are counted."""

import io
import unittest

from counting import tried


class _Plain(unittest.TestCase):
    """Tests of each end."""

    def passes(self):
        """It passes."""

    def fails(self):
        """It fails in two subtests."""
        for number in range(2):
            with self.subTest(number=number):
                self.fail()

    def is_skipped(self):
        """It is skipped."""
        self.skipTest('needs a tool')


class _Without(_Plain):
    """A class that is skipped as a whole."""

    @classmethod
    def setUpClass(cls):
        raise unittest.SkipTest('needs a program')


class _Broken(_Plain):
    """A class that can't be set up."""

    @classmethod
    def setUpClass(cls):
        raise ValueError('not set up')


class Counting(unittest.TestCase):
    """Each test is counted once."""

    def counted(self, *tests):
        """The last line and the status."""
        stream = io.StringIO()
        status = tried(unittest.TestSuite(tests), stream)
        return stream.getvalue().splitlines()[-1], status

    def test_all_pass(self):
        self.assertEqual(self.counted(_Plain('passes'), _Plain('passes')), ('2 passed, 0 failed', 0))

    def test_a_test_fails_once(self):
        self.assertEqual(self.counted(_Plain('passes'), _Plain('fails')), ('1 passed, 1 failed', 1))

    def test_a_skipped_test(self):
        self.assertEqual(self.counted(_Plain('passes'), _Plain('is_skipped')), ('1 passed, 0 failed, 1 skipped', 0))

    def test_a_skipped_class(self):
        self.assertEqual(self.counted(_Plain('passes'), _Without('passes'), _Without('fails')), ('1 passed, 0 failed, 2 skipped', 0))

    def test_a_class_that_cannot_be_set_up(self):
        self.assertEqual(self.counted(_Plain('passes'), _Broken('passes'), _Broken('passes'))[1], 1)
        self.assertEqual(self.counted(_Broken('passes'), _Broken('is_skipped')), ('0 passed, 2 failed', 1))
