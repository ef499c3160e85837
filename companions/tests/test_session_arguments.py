"""Each method refuses each wrong kind of each argument by name, and sends nothing."""

import pickle
import unittest
from copy import copy
from fractions import Fraction
from math import nan

from solid_cases import solid_cases
from support import STEP, library, step_of

from gwb import CompanionError, Lone, Refused, Workbench

P, Q, R = (0, 0, 0), (4, 0, 0), (0, 4, 0)
FINE = Fraction(1, 9_999_999)
TRIANGLE = [P, Q, R]


class Flag:
    """As numpy.bool_ is: no bool, and no whole number, though it has an index."""

    def __index__(self):
        return 1


NUMBER = (True, 1.0, '1', None, [1], 2 ** 32 + 1, Flag())
GIVEN = (True, 1.0, '1', [1], 2 ** 32, -1)
HALF = (True, 1.5, '+1', None, (1,), 2 ** 32, -2 ** 32)
CORNER = (*HALF, Lone(True), Lone('1'), Lone(-1), Lone(2 ** 32))
POINT = (True, 1, 'abc', None, (0, 0), (0, 0, 0, 0), (0, 0, nan), (0, True, 0), ('wide', 0, 0), (0, 0, FINE), (0, 0, 2 ** 63), {0, 1, 2}, (0, None, 0),
         bytearray(3), memoryview(b'abc'))
PLANE = (1, 'abcd', None, (1, 0, 0), (1, 0, 0, nan), (1, 0, 0, True), (1, 0, 0, -2 ** 63 - 1))
POINTS = (None, 7, 'abc', [(0, 0), (40, 0), (40, 5), (5, 5), (5, 40), (0, 40)], [0, 0, 0], [P, Q, (0, 4, FINE)], [P, Q, '400'],
          bytearray(b'abc'), [P, Q, b'abc'], [P, Q, bytearray(b'abc')])
LENGTH = (True, nan, 'wide', None, 0, -1, 2 ** 63, FINE)
FLAG = (1, 0, 'yes', None)
MEASURE = (True, nan, 'wide', 0, -1, Fraction(-1, 2))

# For each method arguments that are right, and for each name the wrong ones.
CASES = {
    'mvfs': ({'point': P}, {'point': POINT, 'solid': GIVEN, 'face': GIVEN, 'loop': GIVEN, 'vertex': GIVEN}),
    'kvfs': ({'solid': 1}, {'solid': NUMBER}),
    'mev': ({'first': 1, 'second': 1, 'point': P}, {'first': CORNER, 'second': CORNER, 'point': POINT, 'edge': GIVEN, 'vertex': GIVEN}),
    'kev': ({'half': 1}, {'half': HALF}),
    'mef': ({'first': 1, 'second': 1}, {'first': HALF, 'second': HALF, 'edge': GIVEN, 'face': GIVEN, 'loop': GIVEN}),
    'kef': ({'half': 1}, {'half': HALF}),
    'kemr': ({'half': 1}, {'half': HALF, 'loop': GIVEN}),
    'mekr': ({'first': 1, 'second': 1}, {'first': CORNER, 'second': CORNER, 'edge': GIVEN}),
    'kfmrh': ({'face': 1, 'other': 2}, {'face': NUMBER, 'other': NUMBER}),
    'mfkrh': ({'ring': 1}, {'ring': NUMBER, 'face': GIVEN}),
    'ringmv': ({'ring': 1, 'face': 1, 'way': 'in'}, {'ring': NUMBER, 'face': NUMBER, 'way': (1, None, True, 'inn', b'in')}),
    'lamina': ({'points': TRIANGLE}, {'points': (*POINTS, [P] * 65), 'solid': GIVEN}),
    'block': ({'point': P, 'sizes': (1, 1, 1)}, {'point': POINT, 'sizes': POINT, 'solid': GIVEN}),
    'sweep': ({'face': 1, 'vector': Q}, {'face': NUMBER, 'vector': POINT}),
    'glue': ({'face': 1, 'other': 2}, {'face': NUMBER, 'other': NUMBER}),
    'split': ({'solid': 1, 'plane': (1, 0, 0, 0)}, {'solid': NUMBER, 'plane': PLANE, 'above': GIVEN, 'refine': FLAG, 'scale': (True, False)}),
    'became': ({}, {'label': FLAG}),
    'undo': ({}, {'command': FLAG}),
    'redo': ({}, {'command': FLAG}),
    'plane': ({'face': 1}, {'face': NUMBER}),
    'volume': ({'solid': 1}, {'solid': NUMBER}),
    'count': ({'solid': 1}, {'solid': NUMBER}),
    'half_edges': ({'loop': 1}, {'loop': NUMBER}),
    'ask': ({'line': 'list'}, {'line': (1, None, b'list', True)}),
    'solid': ({'solid': 1}, {'solid': NUMBER}),
    'face': ({'face': 1}, {'face': NUMBER}),
    'loop': ({'loop': 1}, {'loop': NUMBER}),
    'edge': ({'edge': 1}, {'edge': NUMBER}),
    'vertex': ({'vertex': 1}, {'vertex': NUMBER}),
    'faces': ({}, {'solid': GIVEN, 'plane': (*PLANE[:2], *PLANE[3:], (0, 0, 0, 1)), 'normal': ((0, 0), (0, 0, 0), 'abc', (0, 0, nan)),
                   'containing': ((0, 0), 'abc', (0, 0, True)), 'area': MEASURE}),
    'edges': ({}, {'solid': GIVEN, 'between': ((1,), 1, 'ab', (1, '2'), (1, 2, 3)), 'length': MEASURE,
                   'along': ((0, 0), (0, 0, 0), 'abc', (0, 0, nan))}),
    'vertices': ({}, {'solid': GIVEN, 'at': ((0, 0), 'abc', (0, 0, True))}),
    'profile': ({'points': TRIANGLE, 'along': (0, 0, 1)}, {
        'points': POINTS, 'along': POINT, 'solid': GIVEN, 'top': tuple(wrong for wrong in POINTS if wrong is not None)}),
    'polyhedron': ({'points': TRIANGLE, 'faces': [(0, 1, 2)]}, {'points': POINTS, 'faces': (None, 1, [], [1], 'ab', [(0, 1, 3)], [(0, 1, -1)], [(0, 1.0, 2)]),
                                                                'solid': GIVEN}),
    'sketch': ({'face': 1}, {'face': NUMBER, 'origin': tuple(wrong for wrong in POINT if wrong is not None),
                               **dict.fromkeys(('right', 'up'), ((0, 0), 'abc', (0, 0, nan), 1)), 'plan': (1, 'w', True)}),
    'near': ({'length': 1}, {'length': LENGTH[:4]}),
    'ring': ({'face': 1, 'points': TRIANGLE}, {'face': NUMBER, 'points': POINTS}),
    'pocket': ({'face': 1, 'points': TRIANGLE, 'depth': 1}, {'face': NUMBER, 'points': POINTS, 'depth': LENGTH}),
    **dict.fromkeys(('boss', 'pad'), ({'face': 1, 'points': TRIANGLE, 'height': 1}, {'face': NUMBER, 'points': POINTS, 'height': LENGTH})),
    'hole': ({'face': 1, 'points': TRIANGLE}, {'face': NUMBER, 'points': POINTS}),
    'drill': ({'face': 1, 'center': P, 'radius': 1, 'sides': 4},
              {'face': NUMBER, 'center': POINT, 'radius': LENGTH, 'sides': (True, 1.0, '1', 0, -1, 2 ** 63, 2, 10 ** 6 + 1),
               'depth': LENGTH[:3] + LENGTH[4:], 'diameter': (*LENGTH[:3], *LENGTH[4:], 2), 'circle': (1, None, 'corner'), 'within': (-1, True, None, 'wide')}),
    'glue_all': ({'solids': [1]}, {'solids': (None, 1, '12', [], [1, 1], [1, '2'], [1, 2.0])}),
}
CASES.update(solid_cases(NUMBER, GIVEN, POINT, PLANE, POINTS, LENGTH, FLAG))
CASES.update(dict.fromkeys(('bounding_box', 'centroid', 'surface_area'), ({'solid': 1}, {'solid': NUMBER})))
CASES.update(dict.fromkeys(('area', 'square_area'), ({'face': 1}, {'face': NUMBER})))
CASES.update(dict.fromkeys(('length', 'square_length'), ({'edge': 1}, {'edge': HALF})))
CASES.update(dict.fromkeys(('distance', 'square_distance'), ({'face': 1, 'other': 2}, {'face': NUMBER, 'other': NUMBER})))
CASES.update(dict.fromkeys(('section', 'off_lattice'), ({'solid': 1, 'plane': (1, 0, 0, 0)}, {'solid': NUMBER, 'plane': PLANE})))
CASES['crossings'] = ({'solid': 1}, {'solid': NUMBER, 'other': GIVEN})
CASES.update(dict.fromkeys(('half_edges_array', 'triangles_array'), ({}, {'solid': GIVEN})))
CASES['inertia'] = ({'solid': 1}, {'solid': NUMBER, 'about': (True, 1, 'abc', (0, 0), (0, 0, nan), (0, True, 0), (0, 0, None))})
CASES['label'] = ({'thing': 1}, {'thing': (*NUMBER, 1), 'name': (1, None, b'Lid'), 'colour': (1, None, b'#FF8000', 'red', '#FF80')})
CASES['import_file'] = ({'path': 'part.step'}, {
    'path': (1, None, 1.0, b'part.step'), 'form': (1, None, b'stl', 'dxf'), 'scale': (True, nan, 'wide', None, 0, -1, Fraction(-1, 2)),
    'rounded': FLAG, 'keep_triangles': FLAG, 'repair': FLAG})
CASES['export'] = ({'path': 'part.step'}, {'path': (1, None, 1.0, b'part.step')})
WITHOUT_ARGUMENTS = {'close', 'draft', 'group', 'listing', 'page', 'script', 'show', 'solids', 'save', 'load', 'labels', 'step',
                     'renumber', 'vertices_array'}


class Silent:
    """Lines that may not be sent."""

    is_open, is_drafting, depth, recorded = True, False, 0, 0

    def require_open(self):
        """The session goes on."""

    def __getattr__(self, name):
        raise AssertionError(f'{name}: something was sent')


class Arguments(unittest.TestCase):
    """All of the methods, over the transport that the environment names."""

    def setUp(self):
        self.bench = Workbench(library(), step=STEP)
        self.lines = self.bench._kernel.lines
        self.addCleanup(self.lines.close)
        self.bench._kernel.lines = Silent()

    def test_every_method_is_tried(self):
        methods = {name for name in dir(Workbench) if not name.startswith('_')}
        self.assertEqual(methods, set(CASES) | WITHOUT_ARGUMENTS)

    def test_each_wrong_kind_of_each_argument(self):
        for method, (right, wrong) in CASES.items():
            for name, values in wrong.items():
                for value in values:
                    with self.subTest(method=method, name=name, value=value), self.assertRaises((TypeError, ValueError)) as caught:
                        getattr(self.bench, method)(**{**right, name: value})
                    self.assertRegex(str(caught.exception), rf'^{name}\b')


class Things(unittest.TestCase):
    """Things of the model in the place of numbers: of the right kind they are taken, of another they are refused, and of another bench."""

    # For each argument that takes a thing its kind.
    KINDS = {'kvfs': {'solid': 'solid'}, 'kfmrh': {'face': 'face', 'other': 'face'}, 'mfkrh': {'ring': 'loop'}, 'ringmv': {'ring': 'loop', 'face': 'face'},
             'mev': {'first': 'edge', 'second': 'edge'}, 'kev': {'half': 'edge'}, 'mef': {'first': 'edge', 'second': 'edge'}, 'kef': {'half': 'edge'},
             'kemr': {'half': 'edge'}, 'mekr': {'first': 'edge', 'second': 'edge'}, 'sweep': {'face': 'face'},
             'glue': {'face': 'face', 'other': 'face'}, 'split': {'solid': 'solid'}, 'plane': {'face': 'face'}, 'volume': {'solid': 'solid'},
             'count': {'solid': 'solid'}, 'half_edges': {'loop': 'loop'}, 'solid': {'solid': 'solid'},
             'face': {'face': 'face'}, 'loop': {'loop': 'loop'}, 'edge': {'edge': 'edge'}, 'vertex': {'vertex': 'vertex'},
             'faces': {'solid': 'solid'}, 'edges': {'solid': 'solid'}, 'vertices': {'solid': 'solid'}, 'ring': {'face': 'face'}, 'sketch': {'face': 'face'},
             'pocket': {'face': 'face'}, 'boss': {'face': 'face'}, 'hole': {'face': 'face'}, 'drill': {'face': 'face'},
             'crossings': {'solid': 'solid', 'other': 'solid'}, 'shoulder': {'face': 'face', 'edge': 'edge'}, 'chamfer': {'edge': 'edge'},
             **dict.fromkeys(('notch', 'pad', 'slot', 'groove'), {'face': 'face'}), **dict.fromkeys((
                 'delete', 'copy', 'move', 'turn', 'mirror', 'pattern', 'pattern_around', 'cut', 'trim', 'separate', 'join_faces'), {'solid': 'solid'}),
             **dict.fromkeys(('bounding_box', 'centroid', 'surface_area', 'inertia', 'section', 'off_lattice'), {'solid': 'solid'}),
             **dict.fromkeys(('area', 'square_area'), {'face': 'face'}), **dict.fromkeys(('length', 'square_length'), {'edge': 'edge'}),
             **dict.fromkeys(('distance', 'square_distance'), {'face': 'face', 'other': 'face'})}
    ALL = ('solid', 'face', 'loop', 'edge', 'vertex')

    def setUp(self):
        step = step_of(self, 'test_a_plane_as_it_is_returned', 'test_errors_are_copied_and_pickled')
        self.bench, self.other = Workbench(library(), step=step), Workbench(library(), step=step)
        self.addCleanup(self.bench.close)
        self.addCleanup(self.other.close)
        for bench in (self.bench, self.other):
            bench.block((0, 0, 0), (20, 20, 20))

    def refused(self, error, words, method, name, value):
        before = self.bench.ask('list').lines
        with self.subTest(method=method, name=name, value=value), self.assertRaises(error) as caught:
            getattr(self.bench, method)(**{**CASES[method][0], name: value})
        self.assertRegex(str(caught.exception), words)
        self.assertEqual(self.bench.ask('list').lines, before)

    def test_things_of_another_kind(self):
        for method, names in self.KINDS.items():
            for name, kind in names.items():
                for other in self.ALL:
                    if other != kind:
                        wanted = 'half-edge' if kind == 'edge' and method not in ('edge', 'shoulder', 'chamfer') else kind
                        self.refused(TypeError, rf'^{name}: an? {wanted} is wanted, not the {other} 1$', method, name, getattr(self.bench, other)(1))

    def test_things_of_another_bench(self):
        for method, names in self.KINDS.items():
            for name, kind in names.items():
                self.refused(ValueError, rf'^{name}: the {kind} 1 is of another workbench$', method, name, getattr(self.other, kind)(1))

    def test_the_number_of_the_part_above(self):
        for method in ('split', 'cut'):
            self.refused(TypeError, '^above: a solid is wanted, not the face 6$', method, 'above', self.bench.face(6))
            self.refused(ValueError, '^above: the solid 6 is of another workbench$', method, 'above', self.other.solid(6))

    def test_things_in_lists_and_as_coordinates(self):
        bench, other = self.bench, self.other
        self.refused(TypeError, r'^solids\[0\]: a solid is wanted, not the face 1$', 'glue_all', 'solids', [bench.face(1)])
        self.refused(ValueError, r'^solids\[0\]: the solid 1 is of another workbench$', 'glue_all', 'solids', [other.solid(1)])
        self.refused(TypeError, r'^solids\[0\]: a solid is wanted, not the face 1$', 'union', 'solids', [bench.face(1), 1])
        self.refused(ValueError, r'^solids\[1\]: the solid 1 is of another workbench$', 'union', 'solids', [1, other.solid(1)])
        self.refused(TypeError, r'^between\[1\]: a face is wanted, not the edge 1$', 'edges', 'between', (bench.face(1), bench.edge(1)))
        self.refused(TypeError, r'^point\[0\]: a length .* is wanted, not the face 1$', 'block', 'point', (bench.face(1), 0, 0))
        self.refused(TypeError, r'^first.loop: a loop is wanted, not the face 1$', 'mev', 'first', Lone(bench.face(1)))

    def test_things_of_the_right_kind(self):
        bench = self.bench
        self.assertEqual(bench.volume(bench.solid(1)), bench.volume(1))
        lone = bench.mvfs([30, 0, 0])
        spur = bench.mev(Lone(bench.loop(lone.loop)), Lone(bench.loop(lone.loop)), [31, 0, 0])
        bench.kev(bench.edge(spur.edge))
        bench.kvfs(bench.solid(lone.solid))
        self.assertEqual(bench.edges(between=[bench.face(1), 3]).one().points, ((0, 0, 20), (20, 0, 20)))

    def test_what_a_command_returned_in_the_place_of_its_solid(self):
        bench = self.bench
        block = bench.block((40, 0, 0), [2, 2, 2])
        self.assertEqual((bench.volume(block), bench.count(block).faces, len(bench.faces(solid=block))), (8, 6, 6))
        self.assertEqual(bench.glue_all([block, bench.profile([(42, 0, 0), (44, 0, 0), (44, 2, 0), (42, 2, 0)], along=(0, 0, 2))]), block.solid)

    def test_a_plane_as_it_is_returned(self):
        bench = self.bench
        far = bench.block((10 ** 9 - 4, 10 ** 9 - 4, 10 ** 9 - 4), (4, 4, 4))
        self.assertEqual(bench.faces(plane=bench.plane(far.top)).one().number, far.top)
        small = bench.profile([(0, 0, 50), (9, 0, 50), (0, 9, 50)], along=(0, 0, 9))
        cut = bench.block((0, 0, 55), (9, 9, 9))
        self.assertEqual([bench.volume(part) for part in (cut, bench.split(cut, bench.plane(small.far)).solid)], [324, 405])

    def test_a_copy_is_asked_for_things_of_its_original(self):
        bench = self.bench
        first, second = (bench.block((x, 0, 40), (2, 2, 2)) for x in (0, 10))
        moved = bench.copy(first, move=(0, 0, 10))
        self.assertEqual(moved.of(bench.face(first.top)), bench.face(moved.face(first.top)))
        self.assertEqual(moved.of(bench.solid(first)), bench.solid(moved.solid))
        self.assertRaisesRegex(TypeError, '^part: a thing of the model is wanted', moved.of, first)
        for part in (bench.solid(second), bench.face(second.top), bench.edge(second.edges[0]), bench.vertex(second.vertices[0])):
            self.assertRaisesRegex(LookupError, f'^No{part.kind.capitalize()}: the original, solid {first.solid}, has no {part.kind} {part.number}$', moved.of, part)
        self.assertRaisesRegex(TypeError, '^part: a thing of the model is wanted, not the int 3$', moved.of, 3)
        with Workbench(library(), step=STEP) as other:
            other.block((0, 0, 0), (1, 1, 1))
            for part in (other.solid(first), other.face(first.top), other.edge(first.edges[0])):
                self.assertRaisesRegex(ValueError, ' of another workbench$', moved.of, part)
            self.assertRaisesRegex(ValueError, ' of another workbench$', moved.face, other.face(first.top))

    def test_zero_is_no_number_to_be_found(self):
        for call in (lambda: self.bench.faces(solid=0), lambda: self.bench.edges(solid=0), lambda: self.bench.edges(between=(0, 0)),
                     lambda: self.bench.edges(between=(0, 1))):
            self.assertRaisesRegex(ValueError, '^(solid|between): 0 is below 1$', call)

    def test_a_row_of_more_solids_than_there_are_numbers(self):
        self.assertRaisesRegex(Refused, '^NumbersSpent: ', self.bench.pattern, 1, 10 ** 9, (0, 0, 60))

    def test_a_point_as_any_sequence_has_it(self):
        class Point:
            """As an array of numpy is: iterable, and no sequence by its class."""

            def __iter__(self):
                return iter((1, Fraction(1, 2), 0))

        self.assertEqual(self.bench.inertia(1, about=Point()), self.bench.inertia(1, about=(1, Fraction(1, 2), 0)))

    def test_errors_are_copied_and_pickled(self):
        bench = self.bench
        lamina = bench.lamina([(0, 0, 60), (4, 0, 60), (0, 4, 60)])
        for act in (lambda: bench.count(99), lambda: bench.pocket(3, [(0, 0, 0)] * 3, 1), lambda: bench.vertex(99).point,
                    lambda: bench.block((0, 0, 0), (1, 1, 2 ** 63 - 1)), lambda: bench.faces(area=7).one(), lambda: bench.centroid(lamina)):
            with self.assertRaises(CompanionError) as caught:
                act()
            error = caught.exception
            for again in (pickle.loads(pickle.dumps(error)), copy(error)):
                self.assertEqual((type(again), str(again), vars(again)), (type(error), str(error), vars(error)))
