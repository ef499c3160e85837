"""Labels of a session, and the files that it writes, read again by gwb-import."""

import subprocess
import sys
import unittest
import warnings
from fractions import Fraction

from support import COMPANIONS, STEP, bench_and_folder, library

from gwb import Refused, Unfit, Workbench
from gwb.formats.appearance import Appearance, appearances_in
from gwb.formats.forms import EXPORTED, endings

FORMS = ('.step', '.stp', '.3mf', '.obj', '.off', '.stl', '.STL')


class Exports(unittest.TestCase):
    """A block named Base with a red top, and a block beside it."""

    def setUp(self):
        self.bench, self.folder = bench_and_folder(self)
        self.base = self.bench.block((0, 0, 0), (4, 5, 6))
        self.bench.block((10, 0, 0), (1, 2, 3))
        self.bench.label(self.bench.solid(self.base.solid), 'Base "é"', '#00FF00')
        self.bench.label(self.bench.face(self.base.top), colour='#FF0000')

    def imported(self, file):
        """The script that gwb-import makes of a file."""
        run = subprocess.run([sys.executable, COMPANIONS / 'gwb-import', file], stdout=subprocess.PIPE, check=True)
        return run.stdout.decode()

    def volumes(self, script):
        """The volumes of the solids that the script makes, rising."""
        path = self.folder / 'imported.gwb'
        path.write_text(script, encoding='utf-8')
        with Workbench.load(path, library()) as bench:
            return sorted(bench.volume(solid) for solid in bench.solids())

    def test_each_ending_is_named(self):
        for ending in endings(EXPORTED):
            self.assertRegex(Workbench.export.__doc__, rf'\{ending}\b')

    def test_each_form_is_read_again(self):
        for ending in FORMS:
            with self.subTest(ending):
                file = self.folder / f'part{ending}'
                self.bench.export(file)
                self.assertEqual(self.volumes(self.imported(file)), [Fraction(6), Fraction(120)])

    def test_no_script_is_saved_under_the_name_of_another_form(self):
        for ending in FORMS:
            self.assertRaisesRegex(ValueError, r'^part\.\w+: save\(\) writes a script, and export\(\) a file', self.bench.save, self.folder / f'part{ending}')
            self.assertFalse((self.folder / f'part{ending}').exists())

    def test_names_and_colours_go_with_it(self):
        for ending in ('.step', '.3mf', '.obj'):
            with self.subTest(ending):
                file = self.folder / f'part{ending}'
                self.bench.export(file)
                looks = appearances_in(self.imported(file).splitlines()).values()
                self.assertIn(((255, 0, 0)), [look.colour for look in looks])
                self.assertIn((0, 255, 0), [look.colour for look in looks])
                self.assertTrue(any('Base' in look.name for look in looks), looks)

    def test_a_page(self):
        self.bench.export(self.folder / 'part.html')
        text = (self.folder / 'part.html').read_text(encoding='utf-8')
        self.assertEqual(text, self.bench.page().replace('>gwb<', '>part<'))
        self.assertIn('<title>part</title>', text)
        self.assertIn('#ff0000', text)
        with Workbench(library(), step=1) as bench:
            bench.label(bench.block((0, 0, 0), (1, 2, 3)), 'Brick')
            bench.export(self.folder / 'part.html')
        self.assertIn('<title>Brick</title>', (self.folder / 'part.html').read_text(encoding='utf-8'))

    def test_labels_are_no_commands(self):
        script = self.bench.script()
        self.assertEqual(self.bench.labels['solid', self.base.solid], Appearance('Base "é"', (0, 255, 0)))
        self.bench.label(self.bench.face(self.base.top))
        self.assertEqual(list(self.bench.labels), [('solid', self.base.solid)])
        self.assertEqual(self.bench.script(), script)
        self.bench.undo()
        self.assertEqual(dict(self.bench.labels), {})
        self.bench.redo()
        self.assertEqual(list(self.bench.labels), [('solid', self.base.solid)])

    def test_copies_and_parts_have_those_of_what_they_were(self):
        base, top = (self.bench.labels[thing] for thing in (('solid', self.base.solid), ('face', self.base.top)))
        for made in (self.bench.copy(self.base, move=(0, 50, 0)), *self.bench.pattern(self.base, 3, (50, 0, 0))):
            self.assertEqual((self.bench.labels['solid', made.solid], self.bench.labels['face', made.face(self.base.top)]), (base, top))
        for cut in (lambda: self.bench.split(self.base, (1, 0, 0, -2)).solid,
                    lambda: self.bench.cut(self.base, (0, 2, 0, -5), refine=True).above):
            held = set(self.bench.labels)
            made = cut()
            part = self.bench.faces(solid=made).top().one()
            self.assertEqual(set(self.bench.labels) - held, {('solid', made), ('face', part.number)})
            self.assertEqual((self.bench.labels['solid', made], self.bench.labels['face', part.number]), (base, top))

    def test_parts_of_faces_have_those_of_the_face(self):
        block = self.bench.block((0, 0, 50), (12, 8, 6))
        self.bench.label(self.bench.face(block.top), 'Top')
        self.bench.slot(block.top, (6, 0, 56), (6, 8, 56), 2, 2)
        tops = self.bench.faces(solid=block, plane=(0, 0, 1, -56))
        self.assertEqual([self.bench.labels['face', face.number].name for face in tops], ['Top', 'Top'])
        made = self.bench.cut(block, (1, 0, 0, -5))             # along a wall of the slot, which split refuses
        self.assertEqual(self.bench.labels['face', self.bench.faces(solid=made.above).top().one().number].name, 'Top')
        floor = self.bench.faces(solid=made.above, plane=(0, 0, 1, -54), normal=(0, 0, 1)).one()
        self.assertNotIn(('face', floor.number), self.bench.labels)
        other = self.bench.block((0, 0, 56), (5, 4, 3))
        self.bench.label(self.bench.face(other.top), 'Lid')
        self.bench.union([block, other])
        self.assertEqual(self.bench.labels['face', self.bench.faces(solid=block, plane=(0, 0, 1, -59)).one().number].name, 'Lid')
        self.assertEqual(self.bench.labels['face', self.bench.faces(solid=block, plane=(0, 0, 1, -56)).one().number].name, 'Top')

    def test_they_are_saved_and_loaded(self):
        path = self.folder / 'part.gwb'
        self.bench.save(path)
        with Workbench.load(path, library()) as bench:
            self.assertEqual(bench.labels, self.bench.labels)
            self.assertEqual(bench.listing(), self.bench.listing())

    def test_they_are_saved_after_the_end(self):
        self.bench.delete(self.bench.copy(self.base, move=(50, 0, 0)))
        path, labels = self.folder / 'part.gwb', dict(self.bench.labels)
        self.bench.close()
        self.bench.save(path)
        self.assertEqual(appearances_in(path.read_text().splitlines()), labels)
        self.assertEqual(self.bench.labels, labels)

    def test_what_a_command_returned_is_labelled(self):
        copy, parts = self.bench.copy(self.base, move=(50, 0, 0)), self.bench.split(self.base, (0, 0, 1, -3))
        for made in (self.base, copy, parts):
            self.bench.label(made, f'part {made.solid}')
            self.assertEqual(self.bench.labels['solid', made.solid].name, f'part {made.solid}')
        self.bench.delete(copy)
        with self.assertRaises(Refused):
            self.bench.label(copy, 'gone')

    def test_what_cannot_be_labelled(self):
        with self.assertRaises(TypeError):
            self.bench.label(1, 'Base')
        with self.assertRaises(ValueError):
            self.bench.label(self.bench.solid(1), colour='red')
        with self.assertRaises(Refused):
            self.bench.label(self.bench.solid(99), 'Lid')
        with Workbench(library(), step=STEP) as second:
            second.block((0, 0, 0), (1, 1, 1))
            with self.assertRaises(ValueError):
                self.bench.label(second.solid(1), 'Lid')

    def test_an_unknown_ending(self):
        with self.assertRaisesRegex(ValueError, 'the endings are .step'):
            self.bench.export(self.folder / 'part.dxf')
        self.assertEqual(list(self.folder.iterdir()), [])

    def test_touching_solids_are_told_of(self):
        self.bench.block((4, 0, 0), (2, 5, 6))
        with self.assertWarnsRegex(UserWarning, 'touch or overlap'):
            self.bench.export(self.folder / 'part.stl')
        with warnings.catch_warnings():
            warnings.simplefilter('error')
            self.bench.export(self.folder / 'part.3mf')

    def test_an_obj_that_is_not_written_leaves_the_colours_of_another(self):
        self.bench.export(self.folder / 'part.obj')
        written = (self.folder / 'part.mtl').read_bytes()
        start = self.bench.face(self.base.bottom).outer.half_edges[0]
        self.bench.kemr(self.bench.mev(start, start, (1, 1, 0)).edge)
        self.bench.label(self.bench.face(self.base.top), colour='#0000FF')
        self.assertRaises(Unfit, self.bench.export, self.folder / 'part.obj')
        self.assertEqual((self.folder / 'part.mtl').read_bytes(), written)

    def test_colours_of_something_else_are_not_written_over(self):
        (self.folder / 'part.mtl').write_text('newmtl oak\n')
        for other in (None, 'v 0 0 0\n', 'mtllib part.mtl2\n'):
            if other:
                (self.folder / 'part.obj').write_text(other)
            self.assertRaisesRegex(FileExistsError, r'part\.mtl is there, and is of no part\.obj that is there', self.bench.export,
                                   self.folder / 'part.obj')
            self.assertEqual((self.folder / 'part.mtl').read_text(), 'newmtl oak\n')
        (self.folder / 'part.mtl').unlink()
        for _ in range(2):
            self.bench.export(self.folder / 'part.obj')

    def test_nothing_is_no_file(self):
        with Workbench(library(), step=STEP) as bench:
            for ending in FORMS:
                self.assertRaisesRegex(Unfit, 'no solid is held', bench.export, self.folder / f'none{ending}')
            bench.export(self.folder / 'none.html')
        self.assertEqual([path.name for path in self.folder.iterdir()], ['none.html'])

    def test_names_that_no_file_can_have(self):
        top = self.bench.face(self.base.top)
        self.assertRaisesRegex(ValueError, '^name: 201 characters are more than 200$', self.bench.label, top, 'x' * 201)
        self.assertRaisesRegex(ValueError, '^name: .* no text in UTF-8 has$', self.bench.label, top, 'lid \udcff')
        self.assertEqual(self.bench.labels['face', self.base.top].name, '')
        self.bench.label(top, 'x' * 200)
