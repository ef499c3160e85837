"""STEP files: whole, with a solid for each outer shell, voids, rings and names."""

import re
import unittest

from support import box, examples, listing, model_in, shells, turned

from gwb.errors import Unfit
from gwb.formats.step.write import step_text
from gwb.protocol.listing import read_model


class Step(unittest.TestCase):
    """The text of the files."""

    def whole(self, text):
        """The text, after a look whether each entity is made once, before or after its use."""
        made = re.findall(r'^(#\d+)=', text, re.M)
        self.assertEqual(made, [f'#{i + 1}' for i in range(len(made))])
        self.assertLessEqual(set(re.findall(r'#\d+', text)), set(made))
        self.assertTrue(text.startswith('ISO-10303-21;\n') and text.endswith('END-ISO-10303-21;\n'))
        self.assertEqual(text.count('('), text.count(')'))
        return text

    def test_a_block(self):
        text = self.whole(step_text(model_in(listing(*box((0, 0, 0), (4, 5, 6))))))
        for kind, count in (('MANIFOLD_SOLID_BREP', 1), ('CLOSED_SHELL', 1), ('ADVANCED_FACE', 6), ('EDGE_LOOP', 6),
                            ('EDGE_CURVE', 12), ('ORIENTED_EDGE', 24), ('VERTEX_POINT', 8)):
            self.assertEqual(len(re.findall(rf'={kind}\(', text)), count, kind)
        self.assertIn("MANIFOLD_SOLID_BREP('solid 1'", text)
        self.assertIn("CARTESIAN_POINT('vertex 7',(4.,5.,6.))", text)

    def test_rings_are_bounds(self):
        script = next(script for script in examples() if script.stem == 'block_with_hole')
        text = self.whole(step_text(read_model(script.with_suffix('.expected').read_bytes())))
        self.assertEqual(text.count('FACE_OUTER_BOUND('), 10)
        self.assertEqual(text.count('=FACE_BOUND('), 2)

    def test_voids_belong_to_the_solid_around_them(self):
        text = self.whole(step_text(model_in(shells(
            ((0, 0, 0), (9, 9, 9)), ((1, 1, 1), (8, 8, 8)), ((2, 2, 2), (7, 7, 7)), ((3, 3, 3), (4, 4, 4)), inside_out=[1, 3]))))
        self.assertEqual(text.count('=BREP_WITH_VOIDS('), 2)
        self.assertEqual(text.count('=ORIENTED_CLOSED_SHELL('), 2)

    def test_each_outer_shell_is_a_solid(self):
        text = self.whole(step_text(model_in(shells(((0, 0, 0), (1, 1, 1)), ((5, 0, 0), (6, 1, 1))))))
        self.assertEqual(text.count("=MANIFOLD_SOLID_BREP('solid 1'"), 2)

    def refuse(self, text, part):
        with self.assertRaises(Unfit) as caught:
            step_text(model_in(text))
        self.assertIn(part, str(caught.exception))

    def test_what_is_no_solid(self):
        points, faces = box((0, 0, 0), (4, 4, 4))
        self.refuse(listing(points[:6] + [(4, 4, 5)] + points[7:], faces), "face 2 isn't flat")
        self.refuse(listing(points, turned(faces)), 'inside out')
        self.refuse(listing(points[:4], [[(1, 2, 3, 4)], [(4, 3, 2, 1)]]), 'no volume')
        self.refuse(listing([(0, 0, 0), (4, 0, 0), (4, 0, 0)], [[(1, 2, 3)], [(3, 2, 1)]]), 'no area')
