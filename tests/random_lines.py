#!/usr/bin/env python3
"""Writes random lines of the script language: commands of small numbers, of which a good part is accepted, and lines that are none.

    tests/random_lines.py LINES [SEED]

They come in parts of some 200: each begins with a few commands that are accepted where the model is empty, and ends with many `undo`.
"""
import random
import sys

from counts import command_line

WRONG = (b'', b'# note', b'mvv 1', b'kvfs x', b'kvfs', b'count 1 2', b'undo 1', b'volume \xff', b'lamina 1 0 0', b'kev 3', b'mef +1 -1 0 1000001 3',
         b'   ', b'\tlist \r', b'ringmv 1 1 off', b'mvfs 1 1 1 1 0 0 9999999999999999999', b'#' * 65536, b'a' * 65537)

BEGINNINGS = (
    b'block 1 0 0 0 4 4 4;block 2 0 0 4 4 4 4;glue 1 8;split 1 1 0 0 -2 2;glue 5 17',
    b'mvfs 1 1 1 1 0 0 0;mev @1 @1 1 2 5 0 0;kemr +1 2;mekr @1 @2 1;kemr +1 2;ringmv 2 1 out;mfkrh 1 2;kfmrh 1 2',
    b'block 1 0 0 0 6 6 6;mev +7 +7 13 9 2 2 6;kemr +13 7;mev @7 @7 13 10 2 4 6;mev -13 -13 14 11 4 4 6;mev -14 -14 15 12 4 2 6;'
    b'mef -15 +13 16 7 8;sweep 7 0 0 -6;kfmrh 2 7;split 1 1 0 0 -3 2;undo;split 1 0 0 1 -3 2',
    b'lamina 1 0 0 0 4 0 0 4 4 0 0 4 0;sweep 1 0 0 2;split 1 1 -1 0 0 2;split 1 0 0 1 -1 3')


class Lines:
    """A source of random lines."""

    def __init__(self, seed):
        self.random = random.Random(seed)

    def number(self, most=14):
        return self.random.randint(1, most)

    def coordinate(self):
        return 2 * self.random.randint(-3, 3)

    def point(self):
        return '%d %d %d' % (self.coordinate(), self.coordinate(), self.coordinate())

    def half(self):
        return '%s%d' % (self.random.choice('+-'), self.number(16))

    def corners(self):
        """Two corners, mostly one twice."""
        first = self.random.choice((self.half(), '@%d' % self.number()))
        return '%s %s' % (first, first if self.random.random() < 0.8 else self.half())

    def fresh(self):
        return self.random.randint(15, 60)

    def operator(self):
        new, s = self.fresh, self.number
        return self.random.choice((
            lambda: 'mvfs %d %d %d %d %s' % (new(), new(), new(), new(), self.point()),
            lambda: 'mev %s %d %d %s' % (self.corners(), new(), new(), self.point()),
            lambda: 'mef %s %s %d %d %d' % (self.half(), self.half(), new(), new(), new()),
            lambda: 'kev ' + self.half(),
            lambda: 'kef ' + self.half(),
            lambda: 'kemr %s %d' % (self.half(), new()),
            lambda: 'mekr %s @%d %d' % (self.half(), s(), new()),
            lambda: 'mfkrh %d %d' % (s(), new()),
            lambda: 'kfmrh %d %d' % (s(), s()),
            lambda: 'ringmv %d %d %s' % (s(), s(), self.random.choice(('in', 'out'))),
            lambda: 'kvfs %d' % s()))()

    def larger(self):
        s = self.number
        return self.random.choice((
            lambda: 'lamina %d %s' % (s(6), ' '.join(self.point() for _ in range(s(5)))),
            lambda: 'block %d %s %d %d %d' % (s(6), self.point(), 2 * s(3), 2 * s(3), 2 * s(3)),
            lambda: 'sweep %d %s' % (s(), self.point()),
            lambda: 'glue %d %d' % (s(), s()),
            lambda: 'split %d %s %d %d' % (s(6), self.random.choice(('1 0 0', '0 1 0', '0 0 -1', '1 -1 0', self.point())), self.coordinate(), s(6))))()

    def query(self):
        return self.random.choice(('count %d', 'volume %d', 'plane %d')) % self.number(8)

    def line(self):
        """One line without its newline."""
        kind = self.random.random()
        if kind < 0.02:
            return self.random.choice(WRONG)
        if kind < 0.04:
            return b'list'
        if kind < 0.16:
            return self.random.choice((b'undo', b'redo'))
        return (self.operator() if kind < 0.5 else self.larger() if kind < 0.75 else self.query()).encode()

    def take(self, count):
        """So many lines."""
        while count > 0:
            lines = self.random.choice(BEGINNINGS).split(b';') + [self.line() for _ in range(140)] + [b'undo'] * 60
            yield from lines[:count]
            count -= len(lines)


def main():
    given = command_line(__doc__, lines=int, seed=1)
    for line in Lines(given.seed).take(given.lines):
        sys.stdout.buffer.write(line + b'\n')


if __name__ == '__main__':
    main()
