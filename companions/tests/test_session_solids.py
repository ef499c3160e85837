"""Solids as things: taken away, copied, moved, turned, mirrored, set in rows and scaled, whatever they have."""

import unittest

from support import opened, scripts, step_of

from gwb import Refused
from gwb.checks.check import check
from gwb.geometry.measures import six_volume
from gwb.geometry.moved import changed, mirroring
from gwb.protocol.listing import model_of
from gwb.protocol.replies import split_replies
from gwb.protocol.soundness import require_sound


def listings():
    """All models that are stored."""
    for script in scripts():
        for reply in split_replies(script.with_suffix('.expected').read_bytes()):
            if reply.is_listing:
                yield script.stem, model_of(reply)


def with_hole(bench):
    """A block with a hole through it: its solid and its top."""
    block = bench.block((0, 0, 0), (10, 10, 10))
    bench.hole(block.top, [(2, 2, 10), (4, 2, 10), (4, 4, 10), (2, 4, 10)])
    return block


class Whole(unittest.TestCase):
    """Each way, and what it leaves."""

    def setUp(self):
        self.bench = opened(self, step_of(self, 'test_a_copy_says_what_became_of_each_thing', 'test_points_follow', 'test_where_no_point_can_lie'))

    def six_volume(self, solid):
        """Six times the volume of a solid."""
        model = self.bench.listing()
        return six_volume(model, model.faces_of(solid))

    def one_step(self, act):
        """Does it, takes it back and does it again, each time with the same model: what it returned."""
        before, script, commands = self.bench.listing(), self.bench.script(), repr(self.bench)
        made = act()
        after = self.bench.listing()
        require_sound(after)
        self.bench.undo()
        self.assertEqual((self.bench.listing(), self.bench.script(), repr(self.bench)), (before, script, commands))
        self.bench.redo()
        self.assertEqual(self.bench.listing(), after)
        return made

    def refuse(self, name, value, act):
        before, script = self.bench.listing(), self.bench.script()
        with self.assertRaises(Refused) as caught:
            act()
        self.assertEqual((caught.exception.name, caught.exception.value), (name, value))
        self.assertEqual((self.bench.listing(), self.bench.script()), (before, script))

    def test_points_follow(self):
        block = with_hole(self.bench)
        before = self.bench.listing().vertices
        self.assertEqual(self.one_step(lambda: self.bench.move(block.solid, (5, 0, -1))), block.solid)
        self.assertEqual(self.bench.listing().vertices, {vertex: (x + 5, y, z - 1) for vertex, (x, y, z) in before.items()})
        self.bench.undo()
        self.one_step(lambda: self.bench.turn(block.solid, 'z', about=(10, 0, 7)))
        self.assertEqual(self.bench.listing().vertices, {vertex: (10 - y, x - 10, z) for vertex, (x, y, z) in before.items()})
        self.bench.turn(block.solid, 'z', degrees=-90, about=(10, 0, 7))
        self.assertEqual(self.bench.listing().vertices, before)
        self.one_step(lambda: self.bench.mirror(block.solid, (0, 0, 2, -3)))
        self.assertEqual(self.bench.listing().vertices, {vertex: (x, y, 3 - z) for vertex, (x, y, z) in before.items()})
        self.bench.undo()
        self.one_step(lambda: self.bench.scale(7))
        self.assertEqual(self.bench.listing().vertices, {vertex: (7 * x, 7 * y, 7 * z) for vertex, (x, y, z) in before.items()})
        self.assertEqual(check(self.bench.listing()).findings, [])

    def test_a_copy_says_what_became_of_each_thing(self):
        block = with_hole(self.bench)
        made = self.one_step(lambda: self.bench.copy(block.solid, move=(20, 0, 0), mirror=(0, 1, 0, 0)))
        model = self.bench.listing()
        for vertex in model.only(block.solid).vertices:
            x, y, z = model.vertices[vertex]
            self.assertEqual(model.vertices[made.vertex(vertex)], (x + 20, -y, z))
        for half in (half for edge in model.only(block.solid).edges for half in (edge, -edge)):
            self.assertEqual(model.tail(made.half_edge(half)), made.vertex(model.tail(half)))
            self.assertEqual(model.face_of(-made.half_edge(half)), made.face(model.face_of(half)))
        top = self.bench.faces(solid=block.solid).top().one()
        self.assertEqual(made.of(top), self.bench.faces(solid=made.solid).top().one())
        self.assertEqual(made.of(top.rings[0]).number, made.loop(top.rings[0]))
        self.assertEqual(made.of(self.bench.solid(block.solid)).number, made.solid)
        self.assertEqual(made.of(top.edges[0]).number, made.edge(top.edges[0]))
        self.assertEqual(sorted(model.only(made.solid).loops), sorted(made.loops.values()))
        with self.assertRaises(LookupError):
            made.face(made.face(block.top))

    def test_low_numbers(self):
        block = with_hole(self.bench)
        self.bench.mvfs((40, 0, 0), solid=1_000_000, face=1_000_000)
        self.bench.label(self.bench.face(1_000_000), 'point')
        self.bench.label(self.bench.solid(block.solid), 'block')
        with self.assertRaises(Refused):
            self.bench.block((50, 0, 0), (1, 1, 1))
        shape, labels = self.six_volume(block.solid), dict(self.bench.labels)
        all_now = self.one_step(self.bench.renumber)
        self.assertEqual((all_now.solids[1_000_000], list(self.bench.listing().faces)), (2, list(range(1, len(all_now.faces) + 1))))
        self.assertEqual((self.six_volume(all_now.solids[block.solid]), self.bench.block((50, 0, 0), (1, 1, 1)).solid), (shape, 3))
        self.assertEqual(set(self.bench.labels), {('solid', 1), ('face', all_now.faces[1_000_000])})
        self.bench.undo()
        self.bench.undo()
        self.assertEqual(self.bench.labels, labels)

    def test_where_no_point_can_lie(self):
        block = self.bench.block((0, 0, 0), (1, 2, 3))
        self.refuse('PointRange', 2, lambda: self.bench.move(block.solid, (1_000_000_000, 0, 0)))
        self.refuse('PointRange', 3, lambda: self.bench.scale(500_000_001))
        self.refuse('PointRange', 2, lambda: self.bench.pattern(block.solid, 3, (500_000_000, 0, 0)))
        self.refuse('OffLattice', 1, lambda: self.bench.mirror(block.solid, (3, 0, 0, -1)))
        self.refuse('OffLattice', 2, lambda: self.bench.copy(block.solid, mirror=(1, 2, 0, 0)))
        self.bench.turn(block.solid, 'x', degrees=36 * 10 ** 12)
        self.assertEqual(self.bench.vertices(at=(1, 2, 3)).one().number, 7)

    def test_mirrored_twice_is_as_before(self):
        for stem, model in listings():
            with self.subTest(stem):
                self.assertEqual(changed(changed(model, mirroring((1, -1, 0, 4))), mirroring((1, -1, 0, 4))), model)
