"""Cuts in a finer unit: what is multiplied, what `unit` says then, and what undo, scripts and files make of it."""

import tempfile
import unittest
import warnings
import zipfile
from fractions import Fraction
from pathlib import Path

from support import STEP, bench_and_folder, library, run

from gwb import Refused, Workbench
from gwb.checks.check import check

PLANE = (2, 3, 0, -11)


class Unit(unittest.TestCase):
    """A block of 7 by 5 by 3, which the plane cuts between whole coordinates, and a cube beside it."""

    def setUp(self):
        self.bench, self.folder = bench_and_folder(self, 1)
        self.block = self.bench.block((0, 0, 0), (7, 5, 3))
        self.cube = self.bench.block((20, 0, 0), (2, 2, 2))

    def true_volume(self, solid):
        """The volume, which a finer step doesn't change."""
        return self.bench.volume(solid)

    def exported(self, name):
        """The path of a file that is written, of solids that touch."""
        with warnings.catch_warnings():
            warnings.simplefilter('ignore')
            self.bench.export(self.folder / name)
        return self.folder / name

    def refused(self, name, call):
        before = self.bench.listing(), self.bench.script(), self.bench.step
        with self.assertRaises(Refused) as caught:
            call()
        self.assertEqual(caught.exception.name, name)
        self.assertEqual((self.bench.listing(), self.bench.script(), self.bench.step), before)

    def test_the_least_factor_that_makes_all_points_whole(self):
        self.assertEqual(self.bench.step, 1)
        self.refused('NotLattice', lambda: self.bench.split(self.block, PLANE))
        told = r'^NotLattice: the plane cuts edge 1 .*; in a step 6 times finer all its points are multiples of it, as refine=True'
        for word in ('split', 'cut', 'trim'):
            with self.assertRaisesRegex(Refused, told):
                getattr(self.bench, word)(self.block, PLANE)
        made = self.bench.split(self.block, PLANE, refine=True)
        self.assertEqual(self.bench.step, Fraction(1, 6))
        self.assertEqual(self.true_volume(self.block.solid), Fraction(3 * 11 * 11, 12))
        self.assertEqual(self.true_volume(made.solid), 105 - Fraction(3 * 11 * 11, 12))
        self.assertEqual(self.true_volume(self.cube.solid), 8)
        self.assertEqual(self.bench.bounding_box(self.cube).low, (20, 0, 0))
        self.assertTrue(all(2 * x + 3 * y == 11 for face in made.lower_caps for x, y, _ in self.bench.face(face).points))
        self.assertEqual(check(self.bench.listing()).findings, [])

    def test_a_cut_that_needs_none_changes_nothing_else(self):
        self.bench.split(self.block, (2, 0, 0, -4), refine=True)
        self.assertEqual((self.bench.step, self.bench.bounding_box(self.cube).low), (1, (20, 0, 0)))

    def test_one_step_to_undo_which_takes_the_unit_along(self):
        before = self.bench.listing()
        self.bench.split(self.block, PLANE, refine=True, above=9)
        after = self.bench.listing()
        self.bench.undo()
        self.assertEqual((self.bench.listing(), self.bench.step), (before, 1))
        self.bench.redo()
        self.assertEqual((self.bench.listing(), self.bench.step), (after, Fraction(1, 6)))
        self.bench.undo(command=True)
        self.assertEqual((self.bench.listing(), self.bench.step), (before, 1))

    def test_a_draft_takes_the_unit_back(self):
        before, other = self.bench.listing(), self.bench.block((90, 0, 0), (5, 5, 5))
        with self.bench.draft():
            self.bench.split(other, (3, 0, 0, -281), refine=True)
            finer = self.bench.listing()
            with self.assertRaises(ZeroDivisionError), self.bench.draft():
                self.bench.split(self.block, (2, 3, 0, -11), refine=True)
                self.assertEqual(self.bench.step, Fraction(1, 6))
                raise ZeroDivisionError
            self.assertEqual((self.bench.listing(), self.bench.step), (finer, Fraction(1, 3)))
        self.assertEqual((self.bench.listing(), self.bench.step), (finer, Fraction(1, 3)))
        self.bench.undo()
        self.assertEqual(self.bench.step, 1)
        self.bench.undo()
        self.assertEqual(self.bench.listing(), before)

    def test_numbers_stay(self):
        before = self.bench.listing()
        self.bench.split(self.cube, (7, 0, 0, -7 * 20 - 5), refine=True)
        model = self.bench.listing()
        for kind in ('faces', 'loops', 'edges'):
            held = getattr(before.only(self.block.solid), kind)
            self.assertEqual({number: getattr(model, kind)[number] for number in held}, held)

    def test_units_multiply(self):
        self.bench.split(self.block, PLANE, refine=True)
        self.bench.cut(self.cube, (7, 0, 0, Fraction(-845, 6)), refine=True)
        self.assertEqual(self.bench.step, Fraction(1, 42))
        self.assertEqual(self.true_volume(self.block.solid), Fraction(3 * 11 * 11, 12))

    def test_cut_and_trim(self):
        made = self.bench.cut(self.block, PLANE, refine=True)
        self.assertEqual((made.below, self.bench.step), (self.block.solid, Fraction(1, 6)))
        self.bench.undo()
        self.assertEqual(self.bench.step, 1)
        self.bench.trim(self.block, PLANE, refine=True)
        self.assertEqual((self.bench.solids().numbers, self.bench.step), ((1, 2), Fraction(1, 6)))
        self.assertEqual(self.true_volume(self.block.solid), Fraction(3 * 11 * 11, 12))

    def test_a_cut_that_split_refuses_for_more_than_its_points(self):
        step = self.bench.profile([(0, 10, 0), (4, 10, 0), (4, 12, 0), (2, 12, 0), (2, 14, 0), (0, 14, 0)], along=(0, 0, 3))
        self.refused('TouchedFace', lambda: self.bench.split(step.solid, (0, 3, 2, -36), refine=True))
        self.bench.cut(step.solid, (0, 3, 2, -38), refine=True)
        self.assertEqual(self.bench.step, Fraction(1, 3))

    def test_a_group_that_fails_takes_the_unit_back(self):
        with self.assertRaises(KeyError), self.bench.group():
            self.bench.cut(self.block, PLANE, refine=True)
            raise KeyError
        self.assertEqual(self.bench.step, 1)

    def test_refused_with_nothing_changed(self):
        self.refused('NoSolid', lambda: self.bench.split(7, PLANE, refine=True))
        self.refused('PlaneMisses', lambda: self.bench.split(self.block, (2, 3, 0, 11), refine=True))
        self.refused('SolidTaken', lambda: self.bench.split(self.block, PLANE, above=2, refine=True))
        far = self.bench.block((500_000_000, 0, 0), (1, 1, 1))
        self.refused('PointRange', lambda: self.bench.split(self.block, PLANE, refine=True))
        self.bench.delete(far)
        self.bench.block((0, 0, 300), (900_000_000, 2, 1))
        self.refused('PointRange', lambda: self.bench.cut(4, (3, 1, 0, -4), refine=True))

    def test_saved_and_loaded(self):
        for drafted in (False, True):
            with self.subTest(drafted=drafted):
                if drafted:
                    with self.bench.draft():
                        self.bench.cut(self.block, PLANE, refine=True)
                        self.bench.mvfs((0, 0, 0))
                else:
                    self.bench.split(self.block, PLANE, refine=True)
                path = self.folder / 'part.gwb'
                self.bench.save(path)
                with Workbench.load(path, library()) as again:
                    self.assertEqual((again.step, again.listing()), (Fraction(1, 6), self.bench.listing()))
                    again.save(self.folder / 'again.gwb')
                    self.assertEqual((self.folder / 'again.gwb').read_text(), path.read_text())
                    again.undo()
                    self.assertEqual(again.step, 1)
                self.bench.undo()

    def test_saved_while_a_draft_is_open(self):
        with self.bench.draft():
            self.bench.cut(self.block, PLANE, refine=True)
            self.bench.save(self.folder / 'part.gwb')
        with Workbench.load(self.folder / 'part.gwb', library()) as again:
            self.assertEqual(again.step, Fraction(1, 6))

    def test_a_script_may_begin_with_its_unit(self):
        path = self.folder / 'part.gwb'
        path.write_text('# unit 1/60\nblock 1 0 0 0 60 60 60\n')
        with Workbench.load(path, library()) as bench:
            self.assertEqual(bench.step, Fraction(1, 60))
            bench.undo()
            self.assertEqual(bench.step, Fraction(1, 60))
            bench.save(path)
        self.assertEqual(path.read_text(), '# unit 1/60\n')

    def test_files_keep_the_size(self):
        self.bench.split(self.block, PLANE, refine=True)
        for ending, options in (('.step', {}), ('.3mf', {'rounded': True})):
            with self.subTest(ending):
                path = self.exported(f'part{ending}')
                with Workbench(library(), step=self.bench.step) as again:
                    made = again.import_file(path, **options)
                    self.assertEqual(sorted(map(again.volume, made)), sorted(self.bench.volume(solid) for solid in self.bench.solids()))
                taken = self.bench.import_file(path, **options)
                self.assertEqual([self.bench.bounding_box(solid) for solid in taken],
                                 [self.bench.bounding_box(solid) for solid in self.bench.solids() if solid not in taken])
                self.bench.undo()

    def test_what_the_files_say(self):
        self.bench.split(self.block, PLANE, refine=True)
        texts = {}
        for ending in ('.step', '.obj', '.off', '.stl', '.html', '.3mf'):
            texts[ending] = self.exported(f'part{ending}').read_bytes()
        self.assertIn(b'LENGTH_MEASURE(1.6666666666666666E-1)', texts['.step'])
        self.assertIn(b"CONVERSION_BASED_UNIT('1/6 MILLIMETRE',", texts['.step'])
        self.assertIn(b'\nv 0 3.666666667 0\n', texts['.obj'])
        self.assertIn(b'\n0 3.666666667 0\n', texts['.off'])
        self.assertIn(b'\nvertex 0 3.666666667 0\n', texts['.stl'])
        self.assertIn(b'"unit":["1","6"]', texts['.html'])
        with zipfile.ZipFile(self.folder / 'part.3mf') as package:
            self.assertIn(b'transform="0.16666666666666666 0 0 0 0.16666666666666666 0 0 0 0.16666666666666666 0 0 0"',
                          package.read('3D/3dmodel.model'))
        self.bench.undo()
        for ending in ('.step', '.obj', '.off', '.stl'):
            self.assertNotIn(b'unit 1/6', self.exported(f'part{ending}').read_bytes())

    def test_programs_take_the_unit_of_a_script(self):
        self.bench.split(self.block, PLANE, refine=True)
        self.bench.save(self.folder / 'part.gwb')
        (self.folder / 'part.listing').write_text(''.join(f'{line}\n' for line in self.bench.ask('list').lines))
        for companion, *words, ending in (('step', '.step'), ('mesh', '--form', '3mf', '.3mf'), ('mesh', '--form', 'obj', '.obj'),
                                          ('mesh', '--form', 'stl', '.stl'), ('mesh', '.off')):
            with self.subTest(companion=companion, ending=ending):
                outcome = run(companion, *words, '--names', str(self.folder / 'part.gwb'), str(self.folder / 'part.listing'))
                self.assertEqual(outcome.status, 0, outcome.err)
                written = self.exported(f'part{ending}').read_bytes().decode('utf-8', 'surrogateescape')
                self.assertEqual(outcome.out, written)

    def test_other_forms_are_read_again(self):
        self.bench.split(self.block, PLANE, refine=True)
        for ending in ('.obj', '.off', '.stl', '.3mf', '.step', '.glb'):
            with self.subTest(ending), Workbench(library(), step=self.bench.step) as again:
                made = again.import_file(self.exported(f'part{ending}'), within=Fraction(1, 10 ** 8))
                self.assertEqual(sum(map(again.volume, made)), 105 + 8)
                self.assertEqual(again.labels, {})


class Began(unittest.TestCase):
    """A session that begins in a unit of its own."""

    def test_sixtieths_of_a_millimetre(self):
        with tempfile.TemporaryDirectory() as folder, Workbench(library(), step=Fraction(1, 60)) as bench:
            bench.block((0, 0, 0), (1, 2, 3))
            self.assertEqual(bench.step, Fraction(1, 60))
            bench.save(Path(folder) / 'part.gwb')
            for ending in ('.step', '.3mf', '.obj', '.off', '.stl', '.glb'):
                file = Path(folder) / f'part{ending}'
                bench.export(file)
                with Workbench(library(), step=STEP) as again:
                    self.assertEqual(again.volume(again.import_file(file).one()), 6, ending)
            with Workbench.load(Path(folder) / 'part.gwb', library()) as again:
                self.assertEqual((again.step, again.listing()), (bench.step, bench.listing()))
                again.undo()
                self.assertEqual(again.step, Fraction(1, 60))

    def test_a_finer_unit_is_part_of_it(self):
        with Workbench(library(), step=Fraction(1, 4)) as bench:
            bench.split(bench.block((0, 0, 0), (7, 5, 3)), PLANE, refine=True)
            self.assertEqual(bench.step, Fraction(1, 12))
            bench.undo()
            self.assertEqual(bench.step, Fraction(1, 4))

    def test_what_is_no_unit(self):
        for step in (0, -1, Fraction(-1, 2)):
            self.assertRaisesRegex(ValueError, '^step: .* is not above zero$', Workbench, library(), step=step)
        for step in (True, 'wide', None):
            self.assertRaisesRegex(TypeError, '^step: a length .* is wanted, ', Workbench, library(), step=step)
        for unit in (Fraction(1, 60), 1):
            self.assertRaisesRegex(TypeError, '^unit: lengths are millimetres now, and step says', Workbench, library(), unit=unit)
        for name in ('unit', 'six_volume'):
            with Workbench(library()) as bench:
                self.assertEqual(bench.step, Fraction(1, 1000))
                self.assertRaisesRegex(AttributeError, f'^{name}: ', getattr, bench, name)
