"""Files of other programs taken into a session, beside what it holds."""

import unittest
import warnings
from fractions import Fraction
from pathlib import Path

from support import STORED, bench_and_folder, library
from test_forms_in import amf, amf_object, ply
from test_import import SIDES, TETRAHEDRON

from gwb import CompanionError, InDraft, Unfit, Workbench
from gwb.formats.appearance import Appearance
from gwb.checks.check import check
from gwb.formats.importing import imported
from gwb.geometry.measures import six_volume

# A tetrahedron of 36 cubic millimetres.
PLY, AMF = ply(TETRAHEDRON, SIDES, 'ascii').decode(), amf(amf_object(1, (SIDES, '')))


class Imports(unittest.TestCase):
    """A bench that holds a block, whose numbers the files have too."""

    def setUp(self):
        self.bench, self.folder = bench_and_folder(self, 1)
        self.block = self.bench.block((100, 0, 0), (2, 3, 4))

    def written(self, name, text):
        path = self.folder / name
        path.write_text(text)
        return path

    def test_each_form(self):
        files = [STORED / 'programs' / name for name in ('freecad_hole.step', 'freecad_hole.stl', 'freecad_two.obj', 'openscad_hole.off',
                                                         'freecad_angle.3mf')]
        files += [self.written('part.ply', PLY), self.written('part.amf', AMF)]
        for path in files:
            with self.subTest(path.name):
                self.try_file(path)

    def try_file(self, path):
        """What the file has comes beside what is held, as the importer says, by one command."""
        before, script, model = self.bench.listing(), self.bench.script(), imported(str(path))
        made = self.bench.import_file(path)
        self.assertEqual([6 * self.bench.volume(solid) for solid in made], [six_volume(model, model.faces_of(solid)) for solid in model.solids])
        self.assertEqual([self.bench.bounding_box(solid).sizes for solid in made], [_sizes(model.only(solid)) for solid in model.solids])
        self.assertEqual(self.bench.solids().numbers, (*before.solids, *made.numbers))
        after = self.bench.listing()
        self.assertEqual(after.only(self.block.solid), before)
        self.assertEqual(check(after).findings, [])
        self.bench.undo(command=True)
        self.assertEqual((self.bench.listing(), self.bench.script()), (before, script))
        self.bench.redo()
        self.assertEqual(self.bench.listing(), after)
        self.bench.undo()

    def test_what_is_imported_is_as_what_was_made(self):
        made = self.bench.import_file(str(self.written('part.ply', PLY)))
        self.bench.pocket(self.bench.faces(solid=made.one(), normal=(0, 0, -1)).one(), [(1, 1, 0), (2, 1, 0), (1, 2, 0)], 1)
        self.assertEqual(self.bench.volume(made.one()), 36 - Fraction(1, 2))
        self.assertEqual(self.bench.import_file(self.folder / 'part.ply').numbers, (3,))

    def test_options(self):
        part = self.written('part.ply', PLY)
        for options, volume in (({'scale': 2}, 36 * 8), ({'scale': Fraction(1, 2)}, Fraction(36, 8)),
                                ({'scale': Fraction(2, 3), 'form': 'ply'}, Fraction(32, 3))):
            with self.subTest(options=options):
                self.assertEqual(self.bench.volume(self.bench.import_file(part, **options).one()), volume)
        rounded = self.bench.import_file(part, scale=Fraction(1, 4), rounded=True).one()
        self.assertEqual(self.bench.bounding_box(rounded).sizes, (2, 2, 2))
        hole = STORED / 'programs' / 'freecad_hole.stl'
        plain, triangles = (self.bench.import_file(hole, keep_triangles=keep).one() for keep in (False, True))
        self.assertLess(len(plain.faces), len(triangles.faces))
        self.assertEqual(self.bench.volume(plain), self.bench.volume(triangles))

    def test_points_that_lie_near_a_whole_place(self):
        near = self.written('near.ply', PLY.replace('6 0 0', '6.0004 0 0'))
        self.assertRaises(Unfit, self.bench.import_file, near)
        self.assertRaises(Unfit, self.bench.import_file, near, within=Fraction(3, 10_000))
        self.assertRaises(Unfit, self.bench.import_file, near, within=Fraction(1, 1000), scale=10)  # (where it lies ten times as far)
        self.assertEqual(self.bench.volume(self.bench.import_file(near, within=Fraction(1, 1000)).one()), 36)
        self.assertEqual(self.bench.volume(self.bench.import_file(self.written('part.ply', PLY), within=0).one()), 36)
        self.assertRaisesRegex(ValueError, '^within: -1 is below zero$', self.bench.import_file, near, within=-1)
        self.assertEqual(self.bench.volume(self.bench.import_file(near, within=0.001).one()), 36)
        self.assertRaisesRegex(TypeError, '^within: a length .* is wanted', self.bench.import_file, near, within=None)

    def test_mended(self):
        twisted = STORED / 'programs' / 'blender_flipped.obj'
        before = self.bench.listing()
        with self.assertRaises(CompanionError):
            self.bench.import_file(twisted, rounded=True)
        self.assertEqual(self.bench.listing(), before)
        self.assertTrue(self.bench.import_file(twisted, rounded=True, repair=True))

    def test_flat_solids_alone(self):
        text = (STORED / 'programs' / 'freecad_two.step').read_text()
        curved = self.written('curved.step', text.replace('=PLANE(', '=CONICAL_SURFACE(', 1).replace(' = PLANE(', ' = CONICAL_SURFACE(', 1))
        self.assertRaisesRegex(Unfit, '1 face is curved: ', self.bench.import_file, curved)
        with self.assertWarnsRegex(UserWarning, 'curved.step: solid #.* is left out: 1 face is curved: '):
            made = self.bench.import_file(curved, flat=True)
        self.assertEqual(self.bench.volume(made.one()), 125)
        self.assertRaisesRegex(TypeError, '^flat: ', self.bench.import_file, curved, flat=1)

    def test_what_is_wrong_is_warned_of(self):
        bent = self.written('bent.off', 'OFF\n5 5 0\n0 0 0\n6 0 0\n6 6 1\n0 6 0\n3 3 9\n4 3 2 1 0\n3 0 1 4\n3 1 2 4\n3 2 3 4\n3 3 0 4\n')
        with self.assertWarnsRegex(UserWarning, 'bent.off: face 1 .*flat') as caught:
            made = self.bench.import_file(bent)
        self.assertEqual(Path(caught.filename).name, Path(__file__).name)
        self.assertEqual(len(made.one().faces), 5)

    def test_names_and_colours_become_labels(self):
        self.bench.label(self.bench.solid(self.block.solid), 'Base', '#00FF00')
        self.bench.label(self.bench.face(self.block.top), colour='#FF0000')
        path = self.folder / 'part.step'
        self.bench.export(path)
        made = self.bench.import_file(path).one()
        self.assertEqual(self.bench.labels['solid', made.number], Appearance('Base', (0, 255, 0)))
        red = [face.number for face in made.faces if self.bench.labels.get(('face', face.number), Appearance()).colour == (255, 0, 0)]
        self.assertEqual([self.bench.face(face).points[0][2] for face in red], [4])

    def test_refused_before_anything_is_sent(self):
        before = self.bench.listing(), self.bench.script(), dict(self.bench.labels)
        for name, text, wanted in (('open.off', 'OFF\n3 1 0\n0 0 0\n1 0 0\n0 1 0\n3 0 1 2\n', 'Unfit'),
                                   ('part.off', 'no mesh', 'NotAMesh'), ('part.step', 'ISO-10303-21;\nDATA;\nENDSEC;\n', 'NotAMesh'),
                                   ('half.ply', PLY.replace('6 0 0', '6.5 0 0'), 'Unfit'),
                                   ('far.ply', PLY.replace('6 0 0', '6e9 0 0'), 'Unfit')):
            with self.subTest(name):
                with self.assertRaises(CompanionError) as caught:
                    self.bench.import_file(self.written(name, text))
                self.assertEqual(type(caught.exception).__name__, wanted)
        with self.assertRaises(OSError):
            self.bench.import_file(self.folder / 'none.stl')
        with self.assertRaises(OSError):
            self.bench.import_file('-')
        self.assertEqual((self.bench.listing(), self.bench.script(), dict(self.bench.labels)), before)

    def test_in_a_draft_and_in_a_group(self):
        path, before = self.written('part.ply', PLY), self.bench.listing()
        with self.bench.draft():
            made = self.bench.import_file(path).one()
            self.bench.move(made, (0, 0, 7))
            with self.assertRaises(InDraft):
                self.bench.undo()
        self.assertEqual(self.bench.bounding_box(made).low, (0, 0, 7))
        self.bench.undo()
        self.assertEqual(self.bench.listing(), before)
        with self.bench.group():
            one, other = self.bench.import_file(path).one(), self.bench.import_file(path).one()
        self.assertNotEqual(one.number, other.number)
        self.bench.undo()
        self.assertEqual(self.bench.listing(), before)

    def test_saved_with_the_rest(self):
        self.bench.import_file(STORED / 'programs' / 'freecad_two.step')
        self.bench.save(self.folder / 'part.gwb')
        with Workbench.load(self.folder / 'part.gwb', library()) as again:
            self.assertEqual((again.listing(), again.labels), (self.bench.listing(), self.bench.labels))
            again.undo()
            self.assertEqual(again.solids().numbers, (1,))

    def test_points_that_are_moved_are_told(self):
        path = self.folder / 'part.stl'
        with Workbench(library(), step=Fraction(1, 60)) as fine:
            fine.block((0, 0, 0), (1.25, 1, 1))
            fine.export(path)
        with self.assertWarnsRegex(UserWarning, 'part.stl: points were moved by 0.25 mm at most$'):
            made = self.bench.import_file(path, rounded=True)
        self.assertEqual((made.moved, self.bench.volume(made.one())), (0.25, 1))
        with warnings.catch_warnings():
            warnings.simplefilter('error')
            self.assertEqual(self.bench.import_file(path, scale=4, rounded=True).moved, 0)


def _sizes(model):
    """The sizes of the box around a model."""
    return tuple(max(along) - min(along) for along in zip(*model.vertices.values()))
