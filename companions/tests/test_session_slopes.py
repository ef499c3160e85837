"""Chamfers of several edges at once: a vertex that only divides an edge, and the labels that stay."""

import unittest

from support import opened


class Slopes(unittest.TestCase):
    """A workbench for each test."""

    def setUp(self):
        self.bench = opened(self)

    def edges(self, *ends):
        """The numbers of the edges between points."""
        found = {frozenset(edge.points): edge.number for edge in self.bench.edges()}
        return [found[frozenset(pair)] for pair in ends]

    def test_edges_in_a_row(self):
        """A vertex that only divides an edge."""
        block = self.bench.block((50, 0, 0), (20, 10, 10))
        edge = self.bench.edge(self.edges(((50, 0, 10), (70, 0, 10)))[0])
        halves = next(face.outer.half_edges for face in self.bench.faces(solid=block) if -edge.number in face.outer.half_edges)
        after = halves[(halves.index(-edge.number) + 1) % len(halves)]
        self.bench.mev(edge.number, after, tuple((one + other) // 2 for one, other in zip(*edge.points)))
        row = self.edges(((50, 0, 10), (60, 0, 10)), ((60, 0, 10), (70, 0, 10)))
        self.bench.chamfer_edges(row, 2)
        self.assertEqual(self.bench.volume(block), 2000 - 40)

    def test_labels(self):
        block = self.bench.block((0, 0, 0), (10, 10, 10))
        for face in self.bench.faces():
            self.bench.label(face, f'side {face.number}')
        made = self.bench.chamfer_edges([edge.number for edge in self.bench.face(block.top).edges], 2)
        named = {number for (kind, number), _ in self.bench.labels.items() if kind == 'face'}
        self.assertEqual(named, {face.number for face in self.bench.faces()} - set(made))
