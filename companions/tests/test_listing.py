"""Listings are read, and what is none, or is cut short, is refused with one line."""

import random
import re
import unittest
from unittest import mock

from support import box, examples, listing, model_in

from gwb.errors import CompanionError, NotAListing, NotReplies
from gwb.protocol.listing import read_model
from gwb.protocol.replies import last_listing, lines_of, split_replies

WIRE = 'solid 1\nface 1 1 1\nloop 1 +1 -1\nedge 1 1 2\nvertex 1 0 0 0\nvertex 2 5 0 0\n'
SQUARE = listing([(0, 0, 0), (4, 0, 0), (4, 4, 0), (0, 4, 0)], [[(1, 2, 3, 4)], [(4, 3, 2, 1)]])


class Reading(unittest.TestCase):
    """What is understood."""

    def test_a_wire(self):
        model = model_in(WIRE)
        self.assertEqual(model.solids, (1,))
        self.assertEqual(model.faces[1].loops, (1,))
        self.assertEqual(model.loops[1].halves, (1, -1))
        self.assertEqual(model.tail(-1), 2)
        self.assertEqual(model.vertices[2], (5, 0, 0))

    def test_a_lone_loop(self):
        model = model_in('solid 1\nface 1 1 1\nloop 1 at 1\nvertex 1 0 0 0\n')
        self.assertTrue(model.loops[1].is_lone)
        self.assertEqual(model.loop_vertices(1), [1])

    def test_the_last_listing_of_a_run_is_taken(self):
        self.assertEqual(model_in('ok\n' + SQUARE + WIRE), model_in(WIRE))
        self.assertEqual(model_in(WIRE + 'volume 0\nempty\nok\n').solids, ())

    def test_the_last_of_any_replies_is_found(self):
        chance, lines = random.Random(1), ('ok', 'empty', 'solid 1', 'solid 2', 'face 1 1 1', 'vertex 1 0 0 0', 'volume 6', 'x')
        outcomes = set()
        for _ in range(2_000):
            data = ''.join(chance.choice(lines[:7 + (chance.random() < .1)]) + '\n' for _ in range(chance.randrange(9))).encode()
            with self.subTest(data), mock.patch('gwb.protocol.replies._BLOCK', chance.choice((1, 20, 1_000_000))):
                try:
                    replies = split_replies(data)
                    listings = [reply for reply in replies if reply.is_listing]
                    words = [reply.word for reply in replies]
                    later = next((words[::-1][:place].count('ok') for place, reply in enumerate(replies[::-1]) if reply.is_listing), 0)
                except NotReplies as error:
                    with self.assertRaisesRegex(NotReplies, re.escape(str(error))):
                        last_listing(data)
                    outcomes.add('refused')
                else:
                    found = last_listing(data)
                    self.assertEqual(found and tuple(lines_of(found.pieces)), listings[-1].lines if listings else None)
                    self.assertEqual(found.later if found else 0, later)
                    outcomes.add(len(listings))
        self.assertLessEqual({'refused', 0, 1, 2}, outcomes)

    def test_what_is_found_at_once_is_found_rule_by_rule(self):
        chance, outcomes = random.Random(2), set()
        one_edge = 'solid 1\nface 1 1 1\nface 2 1 2\nloop 1 +1\nloop 2 -1\nedge 1 1 1\nvertex 1 0 0 0\n'
        pinched = listing([(0, 0, 0), (4, 0, 0), (4, 4, 0), (-4, 0, 0), (-4, -4, 0)], [[(1, 2, 3)], [(3, 2, 1)], [(1, 4, 5)], [(5, 4, 1)]])
        for place in range(2_000):
            lines = (SQUARE, pinched, listing(*box((0, 0, 0), (4, 4, 4))), WIRE, one_edge)[place % 5].splitlines()
            for _ in range(chance.choice((0, 1, 1, 2))):
                line = chance.randrange(1, len(lines))
                words = lines[line].split(' ')
                if chance.random() < .7:
                    word = chance.randrange(1, len(words))
                    words[word] = chance.choice(('+1', '-1', '-5', '+12') if words[word][0] in '+-' else ('1', '2', '9'))
                else:
                    words[2:] = chance.choice((words[3:] + words[2:3], words[2:] * 2))
                lines[line] = ' '.join(words)
            outcomes.add(found := self.outcome(lines))
            with self.subTest(lines), mock.patch('gwb.protocol.soundness.is_sound_at_once', lambda _: False):
                self.assertEqual(self.outcome(lines), found)
        told = {re.sub('[0-9]+', 'N', outcome) for outcome in outcomes}
        self.assertLessEqual({'sound', 'the edges at vertex N form more than one fan', "loop N doesn't begin with its least half-edge", 'loop N breaks off after -N',
                              'edge N starts and ends at one vertex', 'edge N is missing', 'vertex N is missing', 'half-edge N stands in N places'}, told)

    def outcome(self, lines):
        """What is said of a listing."""
        try:
            model_in(''.join(line + '\n' for line in lines))
        except CompanionError as error:
            return str(error)
        return 'sound'

    def test_one_solid_of_a_model(self):
        points, faces = box((0, 0, 0), (1, 1, 1))
        more, others = box((5, 0, 0), (6, 1, 1), 9)
        model = model_in(listing(points + more, faces, others)).only(2)
        self.assertEqual(list(model.faces), [7, 8, 9, 10, 11, 12])
        self.assertEqual(list(model.vertices), list(range(9, 17)))

    def test_shells(self):
        points, faces = box((0, 0, 0), (1, 1, 1))
        more, others = box((5, 0, 0), (6, 1, 1), 9)
        model = model_in(listing(points + more, faces + others))
        self.assertEqual(model.shells(1), [[1, 2, 3, 4, 5, 6], [7, 8, 9, 10, 11, 12]])

    def test_the_examples(self):
        for script in examples():
            with self.subTest(script.stem):
                read_model(script.with_suffix('.expected').read_bytes())


class Refusing(unittest.TestCase):
    """What isn't."""

    def refuse(self, text, error, part):
        with self.assertRaises(error) as caught:
            model_in(text)
        self.assertIn(part, str(caught.exception))
        self.assertNotIn('\n', str(caught.exception))

    def test_every_way_to_cut_a_listing_short(self):
        for text in (WIRE, SQUARE, listing(*[box((0, 0, 0), (9, 10, 11))[i] for i in (0, 1)])):
            for length in range(1, len(text)):
                with self.subTest(text[:length][-20:]), self.assertRaises(CompanionError):
                    model_in(text[:length])

    def test_no_replies(self):
        self.refuse('hello\n', NotReplies, 'line 1')
        self.refuse('ok\nvertex 1 2\n', NotReplies, 'line 2')
        self.refuse('refused 16\n', NotReplies, 'line 1')
        self.refuse('ok \n', NotReplies, 'line 1')
        self.refuse('volume 007\n', NotReplies, 'line 1')
        self.refuse('volume ' + '9' * 5000 + '\n', NotReplies, 'line 1')
        self.refuse('caf\u00e9\n', NotReplies, 'byte 4')
        self.refuse('ok\n' + 'x' * 1000 + '\n', NotReplies, '..')

    def test_no_listing(self):
        self.refuse('', NotAListing, 'list')
        self.refuse('ok\nvolume 7\n', NotAListing, 'list')

    def test_order(self):
        lines = WIRE.splitlines(keepends=True)
        self.refuse(''.join(lines[:4] + lines[:3:-1]), NotAListing, 'out of order')
        self.refuse(''.join([lines[1], lines[0], *lines[2:]]), NotReplies, 'none begins there')
        self.refuse(''.join([lines[0], lines[2], lines[1], *lines[3:]]), NotAListing, 'out of order')
        self.refuse(WIRE.replace('vertex 2', 'vertex 1'), NotAListing, 'out of order')

    def test_parts_that_do_not_fit(self):
        for old, new, part in (
                ('face 1 1 1', 'face 1 2 1', 'solid 2'),
                ('face 1 1 1', 'face 1 1 1 3', 'loop 3 is missing'),
                ('face 1 1 1', 'face 1 1 3', 'loop 3 is missing'),
                ('solid 1', 'solid 1\nsolid 2', 'solid 2 has no face'),
                ('face 2 1 2', 'face 2 1 2\nface 3 1 2', 'loop 2 stands in 2 places'),
                ('face 2 1 2\n', '', 'loop 2 is of no face'),
                ('edge 4 4 1\n', '', 'edge 4 is missing'),
                ('edge 4 4 1', 'edge 4 4 1\nedge 5 1 3', 'edge 5'),
                ('edge 4 4 1', 'edge 4 4 4', 'edge 4'),
                ('edge 4 4 1', 'edge 4 4 2', 'loop'),
                ('vertex 4 0 4 0\n', '', 'vertex 4 is missing'),
                ('vertex 4 0 4 0', 'vertex 4 0 4 0\nvertex 5 0 0 0', 'vertex 5'),
                ('+1 +2 +3 +4', '+2 +3 +4 +1', 'least half-edge'),
                ('+1 +2 +3 +4', '+1 +2 +3', 'edge 4'),
                ('+1 +2 +3 +4', '+1 +2 +3 +4 +4', 'half-edge 4 stands'),
                ('+1 +2 +3 +4', '+1 +2 +3 +5', 'edge 5')):
            with self.subTest(new):
                self.assertIn(old, SQUARE)
                self.refuse(SQUARE.replace(old, new), NotAListing, part)

    def test_ranges(self):
        self.refuse(WIRE.replace('vertex 2', 'vertex 1000001').replace('edge 1 1 2', 'edge 1 1 1000001'), NotAListing, 'range')
        self.refuse(WIRE.replace('5 0 0', '5 0 1000000001'), NotAListing, 'vertex 2 lies out of range')

    def test_an_edge_between_two_solids(self):
        self.refuse(SQUARE.replace('solid 1', 'solid 1\nsolid 2').replace('face 2 1', 'face 2 2'), NotAListing, 'two solids')

    def test_a_vertex_with_two_fans(self):
        points = [(0, 0, 0), (4, 0, 0), (0, 4, 0), (-4, 0, 0), (0, -4, 0)]
        text = listing(points, [[(1, 2, 3)], [(3, 2, 1)], [(1, 4, 5)], [(5, 4, 1)]])
        self.refuse(text, NotAListing, 'vertex 1 form more than one fan')
