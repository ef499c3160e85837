"""What commands change, read from the library as they are played: random ones, each compared with a listing, and how much is read."""

import os
import unittest
from unittest import mock

from support import library
from test_playing import AtRandom

from gwb.programs.playing import LibraryPlayer, played
from gwb.session.library import Library


class ByLibrary(AtRandom, unittest.TestCase):
    """By the library."""

    def player(self):
        """The library."""
        player = LibraryPlayer(library())
        self.addCleanup(player.close)
        return player

    def test_lines_that_are_no_commands_change_nothing(self):
        player = self.player()
        self.assertEqual(player.give('block 1 0 0 0 2 2 2')[0].word, 'ok')
        for line in (' ' * 70_000, 'mev', 'mev +1 -', 'mev +1 -2 x', 'mev @1 @99 13 9 0 0 0', f'kev +{"9" * 5_000}', f'glue 1 {"0" * 5_000}2',
                     'undo 1', 'kev @', 'mfkrh +1 +1', 'split \u0661 1 0 0 1 2', 'redo', 'volume 1'):
            reply, before, after = player.give(line)
            self.assertNotEqual(reply.word, 'ok', line[:20])
            self.assertEqual(before, after, line[:20])


class Reading(unittest.TestCase):
    """How often the library is read while a script is played."""

    def calls(self, lines):
        """How many calls read it."""
        with mock.patch.dict(os.environ, GWB=library()), mock.patch.object(Library, '_read', autospec=True, side_effect=Library._read) as read:
            steps = played('\n'.join(lines).encode()).steps
        self.assertEqual({step.reply for step in steps}, {'ok'})
        self.assertEqual(len(steps), len(lines))
        return read.call_count

    def test_as_often_as_the_script_is_long(self):
        blocks = lambda count: [f'block {i} {3 * i} 0 0 2 2 2' for i in range(1, count + 1)]
        star = lambda count: ['mvfs 1 1 1 1 0 0 0', 'mev @1 @1 1 2 0 0 1', *(f'mev +1 +1 {i} {i + 1} {i} 0 0' for i in range(2, count))]
        ring = lambda count: ['lamina 1 0 0 0 4 0 0 0 4 0', *(f'mev +1 -{i - 1} {i} {i} {i} 0 0' for i in range(4, count))]
        for name, script in (('blocks', blocks), ('a star of edges', star), ('a ring of edges', ring)):
            for back in ((), ('undo', 'redo')):
                short, long = (self.calls(script(count) + [word for word in back for _ in range(count // 2)]) for count in (150, 300))
                self.assertLess(long, 2.1 * short, (name, back))
