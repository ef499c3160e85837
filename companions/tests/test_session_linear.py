"""A feature costs what it touches: what Python does for one is counted, where little and where much lies elsewhere."""

import sys
import unittest

from support import STEP, library

from gwb import Workbench


def calls_of(act):
    """How many functions of Python are called."""
    count = 0

    def counted(frame, event, _):
        nonlocal count
        count += event == 'call'
    sys.setprofile(counted)
    try:
        act()
    finally:
        sys.setprofile(None)
    return count


def square(column, row, level=9):
    """A square of three by three in a plate of cells of ten by ten."""
    x, y = 10 * column + 3, 10 * row + 3
    return [(x, y, level), (x + 3, y, level), (x + 3, y + 3, level), (x, y + 3, level)]


class OnABench(unittest.TestCase):
    """Features on one of few blocks and on one of many."""

    FEW, MANY = 10, 160

    def calls(self, blocks, prepare, act):
        """The calls of a feature of the last of so many blocks, after one of the first block."""
        with Workbench(library(), step=STEP) as bench:
            held = [bench.block((20 * number, 0, 0), (9, 9, 9)) for number in range(blocks)]
            at = [prepare(bench, block, 20 * number) for number, block in ((0, held[0]), (blocks - 1, held[-1]))]
            act(bench, held[0], 0, at[0])
            return calls_of(lambda: act(bench, held[-1], 20 * (blocks - 1), at[1]))

    def require_alike(self, act, prepare=lambda *_: None):
        few, many = (self.calls(blocks, prepare, act) for blocks in (self.FEW, self.MANY))
        self.assertLess(many, 1.25 * few)

    def test_features(self):
        for name, act in (
                ('pocket', lambda bench, block, x, _: bench.pocket(block.top, [(x + 2, 2, 9), (x + 7, 2, 9), (x + 7, 7, 9)], 3)),
                ('hole', lambda bench, block, x, _: bench.hole(block.top, [(x + 2, 2, 9), (x + 7, 2, 9), (x + 7, 7, 9)])),
                ('notch', lambda bench, block, x, _: bench.notch(block.top, [(x, 0, 9), (x + 4, 0, 9), (x + 4, 4, 9), (x, 4, 9)], 3)),
                ('slot', lambda bench, block, x, _: bench.slot(block.top, (x + 4, 0, 9), (x + 4, 9, 9), 2, 3)),
                ('shoulder', lambda bench, block, x, _: bench.shoulder(block.top, block.edges[8], 2, 3)),
                ('chamfer', lambda bench, block, x, _: bench.chamfer(block.edges[8], 2))):
            with self.subTest(name):
                self.require_alike(act)

    def test_solids_as_things(self):
        for name, act in (
                ('delete', lambda bench, block, x, _: bench.delete(block)),
                ('copy', lambda bench, block, x, _: bench.copy(block, move=(0, 20, 0))),
                ('pattern', lambda bench, block, x, _: bench.pattern(block, 3, (0, 20, 0))),
                ('move', lambda bench, block, x, _: bench.move(block, (0, 20, 0))),
                ('turn', lambda bench, block, x, _: bench.turn(block, 'z')),
                ('mirror', lambda bench, block, x, _: bench.mirror(block, (0, 1, 0, 0)))):
            with self.subTest(name):
                self.require_alike(act)

    def test_union(self):
        self.require_alike(lambda bench, block, x, other: bench.union([block, other]),
                           lambda bench, block, x: bench.block((x + 9, 2, 2), (3, 3, 3)))


class OnOneSolid(unittest.TestCase):
    """Features in one plate, where there are few others and where there are many."""

    def calls(self, others, make, act):
        """The calls of a feature in a plate with so many others."""
        with Workbench(library(), step=STEP) as bench:
            plate = bench.block((0, 0, 0), (200, 200, 9))
            for number in range(others):
                make(bench, plate, number)
            act(bench, plate, others)
            return calls_of(lambda: act(bench, plate, others + 1))

    @staticmethod
    def pocket(bench, plate, number):
        bench.pocket(plate.top, square(number % 20, number // 20), 3)

    def test_pockets_in_one_face(self):
        few, many = (self.calls(others, self.pocket, self.pocket) for others in (5, 80))
        self.assertLess(many, 2 * few)

    def test_notches_in_one_face(self):
        """Within it and at its edge, where its outline changes: what Python does for them. The library takes the whole solid apart."""
        for name, act in (
                ('within', lambda bench, plate, number: bench.notch(plate.top, square(number % 20, number // 20), 3)),
                ('at its edge', lambda bench, plate, number: bench.notch(plate.top, [
                    (number, 0, 9), (number + 1, 0, 9), (number + 1, 2, 9), (number, 2, 9)][::-1], 3)),
                ('a chamfer', lambda bench, plate, number: bench.chamfer(plate.edges[10 if number % 5 == 0 else 8], 1))):
            with self.subTest(name):
                few, many = (self.calls(others, self.pocket, act) for others in (5, 80))
                self.assertLess(many, 1.5 * few)

    def test_the_area_of_a_face(self):
        few, many = (self.calls(others, self.pocket, lambda bench, plate, _: bench.area(plate.bottom)) for others in (5, 80))
        self.assertEqual(few, many)

    @staticmethod
    def notch(bench, plate, number):
        """A notch in the face below, at its edge."""
        y = 10 * number
        bench.notch(plate.bottom, [(0, y + 4, 0), (4, y + 4, 0), (4, y, 0), (0, y, 0)], 2)

    def test_what_lies_elsewhere(self):
        few, many = (self.calls(others, self.pocket, lambda bench, plate, number, others=others: self.notch(bench, plate, number - others))
                     for others in (5, 80))
        self.assertLess(many, 1.25 * few)
