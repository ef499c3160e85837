"""What came of what by the last command: of features and commands, undone and redone, with the model as it was, and labels that follow it."""

import unittest

from support import library

from gwb import Became, Plane, Workbench

NOTHING = Became({}, {}, {})


def sizes(became):
    """How many faces, edges and vertices something came of."""
    return tuple(map(len, became))


class BecameOfThings(unittest.TestCase):
    """Two blocks beside each other, of 4 mm."""

    def setUp(self):
        self.bench = Workbench(library(), step=1)
        self.one, self.two = self.bench.block((0, 0, 0), (4, 4, 4)), self.bench.block((4, 0, 0), (4, 4, 4))

    def tearDown(self):
        self.bench.close()

    def test_features_and_commands(self):
        bench, one, two = self.bench, self.one, self.two
        self.assertEqual(bench.became(), NOTHING)
        bench.union([one, two])
        self.assertEqual(bench.became().faces[two.top], (one.top,))
        self.assertEqual(sizes(bench.became()), (4, 4, 0))
        bench.split(one, Plane(z=2))
        self.assertEqual(sizes(bench.became()), (4, 4, 0))
        bench.undo()
        bench.notch(one.top, [(-1, 1, 4), (2, 1, 4), (2, 3, 4), (-1, 3, 4)], 2)
        self.assertEqual(sizes(bench.became()), (0, 1, 0))
        bench.undo()
        bench.cut(one, Plane(z=2))
        self.assertEqual(sizes(bench.became()), (4, 4, 0))
        bench.undo()
        bench.subtract(one, [bench.block((1, -1, -1), (2, 6, 6))])
        self.assertEqual(sizes(bench.became()), (4, 4, 0))
        bench.undo()
        bench.undo()
        bench.undo()
        bench.glue_all([one, two])
        self.assertEqual(sizes(bench.became()), (0, 4, 4))
        bench.mev(1, 1, (9, 9, 9))
        self.assertEqual(bench.became(), NOTHING)

    def test_it_is_of_the_last_command_that_is_held(self):
        bench = self.bench
        bench.union([self.one, self.two])
        told = bench.became()
        bench.block((90, 0, 0), (1, 1, 1))
        self.assertEqual(bench.became(), NOTHING)
        before = bench.listing(), bench.script()
        bench.undo()
        self.assertEqual(bench.became(), told)
        bench.redo()
        self.assertEqual((bench.became(), bench.listing(), bench.script()), (NOTHING, *before))
        with bench.draft():
            bench.split(self.one, Plane(z=2))
            self.assertEqual(bench.became(), NOTHING)
        self.assertEqual(sizes(bench.became()), (4, 4, 0))
        with bench.group():
            bench.block((80, 0, 0), (1, 1, 1))
            bench.cut(self.one, Plane(z=1))
            self.assertEqual(sizes(bench.became()), (4, 4, 0))

    def test_labels_follow(self):
        bench, front = self.bench, self.one.sides[0]
        bench.label(bench.face(front), 'front', '#FF0000')
        first, second = bench.half_edges(bench.face(front).outer)[::2]
        made = bench.mef(first, second)
        self.assertEqual(bench.became().faces, {front: (made.face,)})
        self.assertNotIn(('face', made.face), bench.labels)
        self.assertEqual(bench.became(label=True).faces, {front: (made.face,)})
        self.assertEqual(bench.labels['face', made.face].name, 'front')
        bench.label(bench.face(made.face), 'own')
        bench.became(label=True)
        self.assertEqual(bench.labels['face', made.face].name, 'own')
        bench.undo()
        self.assertEqual([*bench.labels], [('face', front)])
