"""Lengths in millimetres: what counts as one, what is refused with what is near, how fine they are, and that all steps give the same."""

import copy
import os
import pickle
import unittest
import warnings
from decimal import Decimal
from fractions import Fraction
from random import Random

from support import bench_and_folder, library

from gwb import OffStep, Plane, Refused, Unfit, Workbench

STEPS = (Fraction(1), Fraction(1, 60), Fraction(1, 1000))
FORMS = ('.stl', '.obj', '.off', '.3mf', '.glb', '.step')
SEEDS = range(int(os.environ.get('RANDOM_LENGTHS', '70')))


class Given(unittest.TestCase):
    """What is given in millimetres, and what comes back."""

    def setUp(self):
        self.bench, self.folder = bench_and_folder(self, Fraction(1, 1000))

    def test_what_counts_as_a_length(self):
        for length, wanted in ((12, 12), (12.5, Fraction(25, 2)), (0.001, Fraction(1, 1000)), (1e2, 100), ('12.5', Fraction(25, 2)), (' -3 mm', -3),
                               ('1/4 in', Fraction(127, 20)), ('3/8"', Fraction(381, 40)), ('1e-3', Fraction(1, 1000)), (Decimal('0.1'), Fraction(1, 10)),
                               (Fraction(7, 8), Fraction(7, 8))):
            with self.subTest(length=length):
                made = self.bench.block((length, 0, 0), (1, 1, 1))
                self.assertEqual(self.bench.bounding_box(made).low[0], wanted)
                self.assertIs(type(self.bench.bounding_box(made).low[0]), int if wanted == int(wanted) else Fraction)

    def test_whole_numbers_of_numpy(self):
        try:
            import numpy
        except ImportError:
            raise unittest.SkipTest('needs numpy') from None
        points = numpy.array([[0, 0, 0], [4, 0, 0], [0, 4, 0]])
        self.assertEqual(self.bench.volume(self.bench.profile(points, along=numpy.array([0, 0, 2]))), 16)
        self.assertRaisesRegex(TypeError, r'^point\[0\]: a length .* is wanted, not the float32 ', self.bench.block, (numpy.float32(1), 0, 0), (1, 1, 1))

    def test_nothing_is_rounded(self):
        for length, near, finer in ((0.1 + 0.2, Fraction(3, 10), None), (Fraction(1, 3), Fraction(333, 1000), 3), ('1/64 in', Fraction(397, 1000), 8)):
            before = self.bench.script()
            with self.assertRaises(OffStep) as caught:
                self.bench.block((0, 0, length), (1, 1, 1))
            error = caught.exception
            self.assertEqual((error.nearest, self.bench.near(length), self.bench.script()), (near, near, before))
            self.assertEqual(f'refine({finer})' in str(error), finer is not None)
            self.assertTrue(str(error).startswith('point[2]: '), error)
            for again in (pickle.loads(pickle.dumps(error)), copy.copy(error)):
                self.assertEqual((str(again), again.nearest, again.finer), (str(error), error.nearest, error.finer))
        self.bench.refine(3)
        self.bench.block((0, 0, '1/3'), (1, 1, 1))

    def test_what_is_no_length(self):
        for length in (True, None, float('nan'), float('inf'), 'wide', '', '1/0', '1 m', b'1', [1], 1j, Decimal('NaN')):
            with self.subTest(length=length):
                self.assertRaisesRegex(TypeError, r'^sizes\[1\]: a length .* is wanted, not ', self.bench.block, (0, 0, 0), (1, length, 1))
        self.assertRaisesRegex(ValueError, r'^point\[0\]: .* mm is out of range$', self.bench.block, (10 ** 30, 0, 0), (1, 1, 1))

    def test_a_finer_step(self):
        part = self.bench.block((1, 2, 3), (4, 5, 6))
        self.bench.drill(part.top, (3, 4, 9), radius=1, sides=8)
        before = self.bench.volume(part), self.bench.bounding_box(part), self.bench.script()
        self.bench.refine(6)
        self.assertEqual((self.bench.step, self.bench.volume(part), self.bench.bounding_box(part)), (Fraction(1, 6000), *before[:2]))
        self.bench.save(self.folder / 'part.gwb')
        with Workbench.load(self.folder / 'part.gwb', library()) as again:
            self.assertEqual((again.step, again.volume(part), again.script()), (self.bench.step, before[0], self.bench.script()))
        self.assertIn('# unit 1/6000', self.bench.script())
        self.bench.undo()
        self.assertEqual((self.bench.step, self.bench.script()), (Fraction(1, 1000), before[2]))
        with self.assertRaises(Refused) as caught:
            self.bench.refine(10 ** 6)
        self.assertEqual((caught.exception.name, self.bench.script()), ('PointRange', before[2]))

    def test_larger_and_smaller(self):
        part = self.bench.block((0, 0, 0), (3, 2, 1))
        self.bench.label(self.bench.face(part.top), 'lid')
        self.bench.scale('1/2')
        self.assertEqual((self.bench.volume(part), self.bench.step, self.bench.labels['face', part.top].name), (Fraction(6, 8), Fraction(1, 1000), 'lid'))
        self.bench.scale(4)
        self.assertEqual(self.bench.bounding_box(part).high, (6, 4, 2))
        with self.assertRaises(Refused) as caught:
            self.bench.scale(Fraction(1, 7000))
        self.assertEqual(caught.exception.name, 'OffLattice')
        self.assertRegex(str(caught.exception), r'in a step 7 times finer')
        self.bench.undo()
        self.bench.undo()
        self.assertEqual(self.bench.volume(part), 6)

    def test_scripts_without_a_step_count_millimetres(self):
        path = self.folder / 'part.gwb'
        path.write_text('block 1 0 0 0 1000 2000 3000\n')
        for words, volume in (({}, 6 * 10 ** 9), ({'step': '1/1000'}, 6)):
            with Workbench.load(path, library(), **words) as bench:
                self.assertEqual(bench.volume(1), volume)

    def test_text_and_arrays_count_steps(self):
        self.bench.block((0, 0, 0), ('0.5', 1, 2))
        self.assertEqual(self.bench.script(), '# unit 1/1000\nblock 1 0 0 0 500 1000 2000\n')
        self.assertEqual(self.bench.ask('volume 1').numbers, [6 * 10 ** 9])
        self.assertEqual(max(row[1:] for row in self.bench.vertices_array().tolist()), [500, 1000, 2000])
        self.assertEqual(max(self.bench.listing().vertices.values()), (500, 1000, 2000))

    def test_each_form_is_read_back_exactly(self):
        part = self.bench.block((0, 0, 0), (40, 20, 10))
        self.bench.drill(part.top, (10, 10, 10), radius=5, sides=16)
        self.bench.chamfer(self.bench.edges(between=(part.bottom, part.sides[0])).one(), '1.234')
        self.come_back((40, 20, 10))

    def test_each_form_holds_twenty_metres(self):
        self.bench.profile([(0, 0, 0), (20_000, 0, 0), (19_000, 3.5, 0)], along=(0, 0, '0.007'))
        self.come_back((20_000, Fraction(7, 2), Fraction(7, 1000)))

    def come_back(self, high):
        """The one solid, so large, is written and read in each form."""
        for form in FORMS:
            with self.subTest(form), Workbench(library()) as again, warnings.catch_warnings():
                warnings.simplefilter('error')
                self.bench.export(self.folder / f'part{form}')
                made = again.import_file(self.folder / f'part{form}')
                self.assertEqual((made.moved, again.volume(made.one()), again.bounding_box(made.one()).high), (0, self.bench.volume(1), high))


class Planes(unittest.TestCase):
    """Planes of points in millimetres."""

    def setUp(self):
        self.bench, _ = bench_and_folder(self, Fraction(1, 1000))
        self.block = self.bench.block((0, 0, 0), (40, 20, 10))

    def test_they_are_made(self):
        self.assertEqual(Plane(z=8)[:4], (0, 0, 1, -8))
        self.assertEqual(Plane(x='2.5')[:4], (1, 0, 0, Fraction(-5, 2)))
        self.assertEqual(Plane.through((1, 2, 3), (0, 0.5, 1))[:4], (0, 1, 2, -8))
        self.assertEqual((-Plane(2, 3, 0, -11))[:4], (-2, -3, 0, 11))
        for wrong in (lambda: Plane(x=1, y=2), lambda: Plane(1, 0, 0, z=2)):
            self.assertRaisesRegex(TypeError, '^Plane: four numbers are wanted, or one of x, y and z$', wrong)

    def test_those_of_faces_are_reduced(self):
        self.assertEqual(self.bench.plane(self.block.top), (0, 0, 1, -10, True))
        self.assertEqual(self.bench.faces(plane=self.bench.plane(self.block.top)).numbers, (self.block.top,))
        self.assertEqual(self.bench.faces(plane=-Plane(z=10)).numbers, (self.block.top,))
        self.assertEqual(self.bench.face(self.block.top).normal, (0, 0, 1))

    def test_they_cut(self):
        self.bench.cut(self.block, Plane(z='2.345'), keep='above')
        self.assertEqual(self.bench.bounding_box(self.block).low, (0, 0, Fraction(2345, 1000)))
        self.bench.trim(self.block, -Plane.through((20, 0, 0), (1, 0, 0)))
        self.assertEqual(self.bench.bounding_box(self.block).low[0], 20)
        with self.assertRaises(Refused) as caught:
            self.bench.cut(self.block, (0, 3, 7, -65))
        self.assertEqual(caught.exception.name, 'NotLattice')
        self.assertRegex(str(caught.exception), r'in a step 7 times finer all its points are multiples of it, as refine=True makes it')
        self.assertEqual(self.bench.off_lattice(self.block, (0, 3, 7, -65)).factor, 7)
        self.bench.cut(self.block, (0, 3, 7, -65), refine=True)
        self.assertEqual(self.bench.step, Fraction(1, 7000))
        self.assertEqual(self.bench.section(self.block, (1, 0, 0, -30))[0][0][0], 30)

    def test_measures(self):
        part = self.bench.block((100, 0, 0), ('0.5', 2, 4))
        self.assertEqual((self.bench.volume(part), self.bench.surface_area(part)), (4, 22))
        self.assertEqual(self.bench.centroid(part), (Fraction(401, 4), 1, 2))
        self.assertEqual(self.bench.inertia(part).moments, (Fraction(4 * 20, 12), Fraction(4 * 65, 48), Fraction(4 * 17, 48)))
        self.assertEqual(self.bench.inertia(part, about=(100.25, 1, 2)), self.bench.inertia(part))
        self.assertEqual((self.bench.area(part.top), self.bench.square_area(part.top), self.bench.face(part.top).area), (1, 1, 1))
        edge = self.bench.edges(solid=part, length='0.5')[0]
        self.assertEqual((self.bench.length(edge), self.bench.square_length(edge), edge.length), (0.5, Fraction(1, 4), Fraction(1, 2)))
        self.assertEqual((self.bench.distance(part.top, part.bottom), self.bench.square_distance(part.top, part.bottom)), (4, 16))
        self.assertEqual(self.bench.faces(solid=part, area='1').numbers, (part.top, part.bottom))
        self.assertEqual(self.bench.vertices(at=(100.5, 2, 4)).one().point, (Fraction(201, 2), 2, 4))
        self.assertEqual(self.bench.faces(solid=part).nearest((100.4, 1, 5)).numbers, self.bench.faces(solid=part).nearest((Fraction(1004, 10), 1, 5)).numbers)


class Slopes(unittest.TestCase):
    """Sketches on faces that lie across no axis."""

    def setUp(self):
        self.bench, _ = bench_and_folder(self, Fraction(1, 1000))
        self.roof = self.bench.profile([(0, 0, 20), (40, 0, 20), (20, 0, 40)], along=(0, 30, 0))
        self.slope = self.bench.faces(solid=self.roof.solid, normal=(1, 0, 1)).one()

    def test_a_hole_in_a_roof_by_its_plan(self):
        sketch = self.bench.sketch(self.slope, plan='z', origin=(30, 15, 30))
        self.assertEqual((sketch.right, sketch.up), ((1, 0, -1), (0, 1, 0)))
        outline = sketch.rectangle((-2, -2), (4, 4))
        self.assertEqual([point[:2] for point in outline], [(28, 13), (32, 13), (32, 17), (28, 17)])
        ring = self.bench.ring(self.slope, outline)
        self.bench.sweep(ring.face, (0, 0, -5))
        self.assertEqual(self.bench.volume(self.roof), 12000 - 4 * 4 * 5)
        self.bench.ring(self.slope, self.bench.sketch(self.slope, plan='z', origin=(30, 5, 30)).polygon((0, 0), radius=3, sides=8))

    def test_where_no_vector_of_length_one_is_exact(self):
        with self.assertRaises(Refused) as caught:
            self.bench.sketch(self.slope)
        self.assertEqual(caught.exception.name, 'OffLattice')
        self.assertRegex(str(caught.exception), r"plan='z' takes coordinates as seen from above, and up=\(-1, 0, 1\) steps as long as it is$")
        sketch = self.bench.sketch(self.slope, up=(-1, 0, 1))
        self.assertEqual(sketch.point(3, '2.5'), (Fraction(35, 2), 3, Fraction(85, 2)))
        with self.assertRaises(Refused) as caught:
            self.bench.sketch(self.slope, plan='y')
        self.assertEqual(caught.exception.name, 'NotInPlane')

    def test_a_circle_on_a_slope_of_3_4_5(self):
        wedge = self.bench.profile([(100, 0, 0), (140, 0, 0), (100, 0, 30)], along=(0, 30, 0))
        face = self.bench.faces(solid=wedge.solid, normal=(3, 0, 4)).one()
        sketch = self.bench.sketch(face, origin=(140, 0, 0))
        self.assertEqual([sum(part * part for part in way) for way in (sketch.right, sketch.up)], [1, 1])
        pocket = self.bench.pocket(face, sketch.polygon((15, 20), diameter=10, circle='area'), 5)
        gone = 18000 - self.bench.volume(wedge)
        self.assertLess(abs(float(gone) / 5 / 78.5398 - 1), 0.001)
        self.assertEqual(len(pocket.sides), 24)


class RandomPrograms(unittest.TestCase):
    """Programs in millimetres, at three steps: each gives the model of the program in steps that it means. RANDOM_LENGTHS of the environment says how many."""

    def test_the_same_model(self):
        told = {True: 0, False: 0}
        for seed in SEEDS:
            for step in STEPS:
                with self.subTest(seed=seed, step=step), Workbench(library(), step=step) as bench, Workbench(library(), step=1) as lattice:
                    fine = int(1 / step)
                    ours, theirs = (Random(f'{seed}') for _ in range(2))
                    for _ in range(8):
                        made = [self.tried(bench, ours, 1), self.tried(lattice, theirs, fine)]
                        self.assertEqual(made[0], made[1])
                        told[made[0] == ''] += 1
                    self.assertEqual(bench.listing(), lattice.listing())
                    self.assertEqual([bench.volume(solid) / step ** 3 for solid in bench.solids()], [lattice.volume(solid) for solid in lattice.solids()])
                    self.assertEqual(bench.script().replace(f'# unit {step}\n', ''), lattice.script())
        self.assertGreater(min(told.values()), len(SEEDS))

    def tried(self, bench, random, times):
        """A random call, whose lengths are multiplied: the name of what it is refused for, or nothing. One that is refused leaves all as it was."""
        before = bench.listing(), bench.script()
        try:
            with warnings.catch_warnings():
                warnings.simplefilter('ignore')
                self.called(bench, random, times)
        except (Refused, Unfit) as error:
            self.assertEqual((bench.listing(), bench.script()), before)
            return getattr(error, 'name', type(error).__name__)
        return ''

    def called(self, bench, random, times):
        def at(*parts):
            return tuple(part * times for part in parts)

        def spot():
            return at(*(random.randrange(-12, 13) for _ in range(3)))
        solids, faces, edges = bench.solids(), bench.faces(), bench.edges()
        word = random.choice(['block', 'profile', 'move', 'copy', 'turn', 'cut', 'drill', 'pocket', 'chamfer', 'slot', 'union', 'mirror', 'pattern', 'sketch',
                              'boss', 'notch', 'trim', 'subtract', 'intersect', 'swing', 'pad', 'groove', 'shoulder', 'slopes'])
        if word == 'block' or len(solids) < 2:
            bench.block(spot(), at(*(random.randrange(3, 9) for _ in range(3))))
            return
        (solid, other), face, edge = random.sample(list(solids), 2), random.choice(faces), random.choice(edges)
        depth, (x, y, z) = random.randrange(1, 4) * times, face.points[0]
        middle = tuple(sum(parts) // len(face.points) // times * times for parts in zip(*face.points))
        near = [tuple((3 * part + other) // 4 // times * times for part, other in zip(middle, point)) for point in face.points]
        plane = [random.randrange(-2, 3) for _ in range(3)]
        far = random.randrange(-9, 10) * times
        way, size = spot(), random.randrange(1, 3)
        {'profile': lambda: bench.profile([spot(), spot(), spot()], along=way), 'move': lambda: bench.move(solid, way),
         'copy': lambda: bench.copy(solid, move=way), 'turn': lambda: bench.turn(solid, 'xyz'[size], degrees=90, about=way),
         'cut': lambda: bench.cut(solid, (*plane, far)), 'drill': lambda: bench.drill(face, middle, size * times, 4, depth=depth),
         'pocket': lambda: bench.pocket(face, near, depth), 'chamfer': lambda: bench.chamfer(edge, size * times),
         'slot': lambda: bench.slot(face, middle, (x, y, z), 2 * times, depth), 'union': lambda: bench.union(list(solids)),
         'mirror': lambda: bench.mirror(solid, (1, 0, 0, far)), 'pattern': lambda: bench.pattern(solid, 2, at(40, 0, 0)),
         'boss': lambda: bench.boss(face, near, depth), 'notch': lambda: bench.notch(face, near, depth), 'trim': lambda: bench.trim(solid, (*plane, far)),
         'subtract': lambda: bench.subtract(solid, [other]), 'intersect': lambda: bench.intersect([solid, other]),
         'pad': lambda: bench.pad(face, near, depth), 'groove': lambda: bench.groove(face, middle, (x, y, z), 2 * times, depth),
         'shoulder': lambda: bench.shoulder(face, face.edges[0], size * times, depth), 'slopes': lambda: bench.chamfer_edges(face.edges[:2], size * times),
         'swing': lambda: bench.turn(solid, 'z', to=(4, 3), about=way),
         'sketch': lambda: bench.ring(face, bench.sketch(face).rectangle(at(1, 1), at(1, 2)))}[word]()
