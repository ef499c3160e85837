"""What gwb-step and gwb-mesh write beside shapes: names, colours, tolerances, and warnings of solids that touch."""

import io
import re
import unittest
import zipfile
from xml.etree import ElementTree

from support import InFolder, box, boxes, listing, model_in, run, turned

from gwb.formats.appearance import Appearance, appearances_in, comments
from gwb.formats.importing import read_file
from gwb.formats.mesh import mesh_of
from gwb.formats.obj import mtl_text, obj_text
from gwb.formats.step.write import step_text
from gwb.formats.three_mf.write import MODEL_PART, three_mf_bytes
from gwb.geometry.touching_solids import touching_solids

RED, BLUE, GREY = (255, 0, 0), (0, 0, 255), (128, 128, 128)
LOOKS = {('solid', 1): Appearance('D\u00fcse <4> "\'&\\', RED), ('face', 2): Appearance('', BLUE), ('face', 8): Appearance('', GREY)}


TWO = boxes(((0, 0, 0), (2, 2, 2)), ((5, 0, 0), (7, 2, 2)))


class Read(InFolder):
    """What the tests share."""

    def looks_back(self, name, data):
        return read_file(self.file(name, data)).looks


class Looks(Read):
    """Names and colours come back from each form that has them."""

    def test_step(self):
        text = step_text(model_in(TWO), LOOKS)
        self.assertTrue(text.isascii())
        self.assertEqual(self.looks_back('part.step', text), LOOKS)
        self.assertEqual(len(re.findall(r'=COLOUR_RGB\(', text)), 3)
        self.assertEqual(self.looks_back('part.step', step_text(model_in(TWO))), {})
        self.assertNotIn('STYLED_ITEM', step_text(model_in(TWO)))

    def test_step_has_a_part_for_each_named_solid(self):
        text = step_text(model_in(TWO), LOOKS)
        self.assertEqual(re.findall(r"=PRODUCT\('([^']*)'", text.replace("''", '"')), ['gwb', 'D\\X2\\00FC\\X0\\se <4> ""&\\\\', 'solid 2'])
        self.assertEqual((text.count('=NEXT_ASSEMBLY_USAGE_OCCURRENCE('), text.count('=ADVANCED_BREP_SHAPE_REPRESENTATION(')), (2, 2))
        made = re.findall(r'^(#\d+)=', text, re.M)
        self.assertEqual(made, [f'#{i + 1}' for i in range(len(made))])
        self.assertLessEqual(set(re.findall(r'#\d+', text)), set(made))

    def test_3mf(self):
        data = three_mf_bytes(mesh_of(model_in(TWO)), LOOKS)
        self.assertEqual(self.looks_back('part.3mf', data), LOOKS)
        with zipfile.ZipFile(io.BytesIO(data)) as package:
            root = ElementTree.fromstring(package.read(MODEL_PART))
        ids = [held.get('id') for held in root.find('{*}resources')]
        self.assertEqual((len(set(ids)), ids[0]), (3, '3'))
        self.assertEqual([held.get('pindex') for held in root.findall('.//{*}object')], ['0', '3'])

    def test_obj_with_materials(self):
        mesh = mesh_of(model_in(TWO))
        self.file('part.mtl', mtl_text(LOOKS))
        named = {**LOOKS, ('solid', 1): Appearance('a  lid', RED)}
        back = self.looks_back('part.obj', obj_text(mesh, named, 'part.mtl'))
        self.assertEqual(back['solid', 1].name, 'a_lid')    # (many readers end a name at a blank)
        self.assertEqual([back['face', face].colour for face in (1, 2, 3, 8)], [RED, BLUE, RED, GREY])
        whole = {('solid', 1): Appearance('lid', RED), ('solid', 2): Appearance('pan', BLUE)}
        self.assertEqual(self.looks_back('part.obj', obj_text(mesh, whole, 'part.mtl')), whole)
        self.assertNotIn('usemtl', obj_text(mesh, whole))

    def test_one_name_of_several_solids(self):
        looks = {('solid', 1): Appearance('lid'), ('solid', 2): Appearance('lid')}
        text = step_text(model_in(TWO), looks)
        self.assertIn("MANIFOLD_SOLID_BREP('lid (solid 1)'", text)
        found = read_file(self.file('part.step', text))
        self.assertEqual((len(found.model.solids), found.looks), (2, looks))

    def test_a_name_that_looks_like_a_number(self):
        text = step_text(model_in(TWO), {('solid', 1): Appearance('solid 2')})
        self.assertEqual(len(read_file(self.file('part.step', text)).model.solids), 2)

    def test_bodies_of_one_solid(self):
        points, faces = box((0, 0, 0), (2, 2, 2))
        more, others = box((5, 0, 0), (7, 2, 2), 9)
        text = step_text(model_in(listing(points + more, faces + others)), {('solid', 1): Appearance('pair', RED)})
        found = read_file(self.file('part.step', text))
        self.assertEqual((len(found.model.solids), found.looks), (1, {('solid', 1): Appearance('pair', RED)}))


class Comments(Read):
    """Names and colours in a script."""

    def test_they_are_read_as_they_were_written(self):
        looks = {**LOOKS, ('face', 3): Appearance('line\nbreak \u2028 "x"')}
        lines = list(comments(looks))
        self.assertEqual(appearances_in(lines), looks)
        self.assertTrue(all(line.startswith('# ') and line.isascii() and '\n' not in line for line in lines))
        self.assertEqual(appearances_in(['# solid 1', '# solid one name "x"', 'list', '# solid 1 name "x" y']), {('solid', 1): Appearance()})

    def test_the_way_through_the_programs(self):
        listed = self.file('part.txt', TWO)
        script = self.file('part.gwb', '\n'.join(comments(LOOKS)) + '\n')
        step = run('step', '--names', script, listed).out
        self.assertEqual(self.looks_back('part.step', step), LOOKS)
        materials = str(self.folder / 'colours.mtl')
        written = run('mesh', '--form', 'obj', '--names', script, '--materials', materials, listed).out
        self.assertTrue(written.startswith('mtllib colours.mtl\n'))
        self.assertEqual(self.looks_back('part.obj', written)['face', 2].colour, BLUE)
        back = self.file('back.step', step)
        self.assertEqual(run('import', back).out.splitlines()[:3], list(comments(LOOKS)))

    def test_groups_of_obj_are_written_where_they_are_asked_for(self):
        """Many programs take each group for a mesh, so that a solid would fall apart."""
        listed = self.file('part.txt', TWO)
        plain, grouped = run('mesh', '--form', 'obj', listed).out, run('mesh', '--form', 'obj', '--groups', listed).out
        self.assertEqual([line for line in plain.splitlines() if line[:2] in ('o ', 'g ')], ['o solid_1', 'o solid_2'])
        self.assertEqual([line for line in grouped.splitlines() if not line.startswith('g ')], plain.splitlines())
        self.assertEqual(grouped.count('g face_'), 12)
        self.assertEqual(self.looks_back('part.obj', grouped), {})

    def test_a_material_stands_where_it_changes(self):
        text = obj_text(mesh_of(model_in(TWO)), LOOKS, 'colours.mtl')
        used = [line for line in text.splitlines() if line.startswith(('usemtl', 'o '))]
        self.assertTrue(all(one != other for one, other in zip(used, used[1:])), used)

    def test_words_that_do_not_go_together(self):
        listed = self.file('part.txt', TWO)
        self.assertEqual(run('mesh', '--groups', listed).status, 2)
        self.assertEqual(run('mesh', '--materials', 'x.mtl', listed).status, 2)
        self.assertEqual(run('mesh', '--names', '/nowhere', listed).status, 3)


class Tolerance(unittest.TestCase):
    """How exact lengths are said to be in STEP."""

    def test_by_the_farthest_place(self):
        for far, said in ((1, '1.E-06'), (4, '1.E-06'), (10 ** 8, '1.E-06'), (10 ** 8 + 1, '1.E-05'), (10 ** 9, '1.E-05')):
            text = step_text(model_in(boxes(((far - 1, 0, 0), (far, 1, 1)))))
            self.assertIn(f"UNCERTAINTY_MEASURE_WITH_UNIT(LENGTH_MEASURE({said})", text)


class TouchingSolids(Read):
    """One mesh of several solids that touch is read as one wrong body."""

    def warned(self, text, *words):
        outcome = run('mesh', *words, self.file('part.txt', text))
        self.assertEqual(outcome.status, 0)
        return outcome.err

    def test_they_are_named(self):
        split = boxes(((0, 0, 0), (2, 2, 2)), ((9, 0, 0), (10, 2, 2)), ((2, 0, 0), (4, 2, 2)))
        told = ('gwb-mesh: warning: solids 1 and 3 touch or overlap, and {} does not keep solids apart: many programs will read one wrong body. '
                '--solid writes each alone, --form 3mf keeps them apart\n')
        for form in ('off', 'stl'):
            self.assertEqual(self.warned(split, '--form', form), told.format(form.upper()))
            self.assertEqual(self.warned(split, '--form', form, '--solid', '1'), '')
            self.assertEqual(self.warned(TWO, '--form', form), '')
        for form in ('obj', '3mf'):
            self.assertEqual(self.warned(split, '--form', form), '')

    def test_how_they_touch(self):
        low = ((0, 0, 0), (4, 4, 4))
        for other, touch in ((((4, 4, 4), (6, 6, 6)), True), (((4, 1, 1), (6, 3, 3)), True), (((1, 1, 1), (3, 3, 3)), True),
                             (((1, 1, -1), (3, 3, 5)), True), (((5, 0, 0), (6, 4, 4)), False), (((-1, 1, 4), (5, 3, 6)), True),
                             (((-1, 4, 4), (5, 6, 6)), True)):
            for pair in ((low, other), (other, low)):
                self.assertEqual(list(touching_solids(model_in(boxes(*pair)))), [(1, 2)] if touch else [], pair)

    def test_one_in_the_hollow_of_another(self):
        points, faces = box((0, 0, 0), (9, 9, 9))
        hollow, walls = box((2, 2, 2), (7, 7, 7), 9)
        inner, others = box((3, 3, 3), (6, 6, 6), 17)
        self.assertEqual(list(touching_solids(model_in(listing(points + hollow + inner, faces + turned(walls), others)))), [])
