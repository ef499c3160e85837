"""Five parts as a person writes them, in millimetres alone: what they hold is what is worked out by hand with true circles, and each form keeps it."""

import unittest
import warnings
from fractions import Fraction
from math import asin, cos, pi, sin, sqrt

from support import bench_and_folder, library

from gwb import Plane, Workbench

THOUSANDTH = Fraction(1, 1000)
FORMS = ('.stl', '.obj', '.off', '.3mf', '.glb', '.step')


def bracket(bench):
    """An angle with two ribs, three bores and three chamfers."""
    ribs = [bench.profile([(6, y, 6), (26, y, 6), (6, y, 36)], along=(0, 4, 0)) for y in (4, 32)]
    part = bench.union([bench.block((0, 0, 0), (60, 40, 6)), bench.block((0, 0, 6), (6, 40, 44)), *ribs])
    base, wall, end = (bench.faces(plane=plane).one() for plane in (Plane(z=6), Plane(x=6), Plane(x=60)))
    for y in (12.5, 27.5):
        bench.drill(base, (45, y, 6), diameter=8.4, circle='area')
    bench.drill(wall, (6, 20, 28), diameter='1/4 in', circle='area')
    for side in (Plane(y=0), Plane(y=40)):
        bench.chamfer(bench.edges(between=(end, bench.faces(plane=-side if side.d == 0 else side).one())).one(), 5)
    bench.chamfer(bench.edges(between=(bench.faces(plane=Plane(z=50)).one(), bench.faces(plane=-Plane(x=0)).one())).one(), 2.5)
    return [part]


def bracket_by_hand():
    bores = 2 * pi * 4.2 ** 2 * 6 + pi * 3.175 ** 2 * 6
    return [60 * 40 * 6 + 6 * 40 * 44 + 2 * 20 * 30 / 2 * 4 - 2 * 5 * 5 / 2 * 6 - 2.5 * 2.5 / 2 * 40 - bores]


FLANKS = ((43, -0.3), (50, -0.12), (50, 0.12), (43, 0.3))


def gear(bench):
    """A plate with twelve teeth, six bores around, and one in the middle with a keyway."""
    turns = [(radius, 2 * pi * (tooth + part) / 12) for tooth in range(12) for radius, part in FLANKS]
    outline = [(bench.near(radius * cos(turn)), bench.near(radius * sin(turn)), 0) for radius, turn in turns]
    wheel = bench.profile(outline, along=(0, 0, 8))
    sketch, beside = bench.sketch(wheel.far, origin=(0, 0, 8), right=(1, 0, 0)), bench.near(sqrt(10 ** 2 - 3 ** 2))
    bore = [point for point in sketch.polygon((0, 0), diameter=20, circle='area') if point[0] < 0 or abs(point[1]) > 3]
    bench.hole(wheel.far, [*bore, *sketch.points([(beside, -3), (12.8, -3), (12.8, 3), (beside, 3)])])
    for place in range(6):
        middle = (bench.near(28 * cos(pi * place / 3)), bench.near(28 * sin(pi * place / 3)), 8)
        bench.drill(wheel.far, middle, diameter=12.5, circle='area')
    return [wheel.solid]


def gear_by_hand():
    (inner, low), (outer, high) = FLANKS[:2]
    turns = [2 * pi * part for part in (high - low, -2 * high, high - low, 1 + 2 * low)]
    teeth = 12 * sum(one * other * sin(turn / 12) / 2 for one, other, turn in zip((inner, outer, outer, inner), (outer, outer, inner, inner), turns))
    key = 6 * 12.8 - (3 * sqrt(10 ** 2 - 3 ** 2) + 10 ** 2 * asin(3 / 10))
    return [8 * (teeth - pi * 10 ** 2 - 6 * pi * 6.25 ** 2 - key)]


def dovetail(bench):
    """Two boards, one with three tails and one with the sockets for them, drawn apart."""
    board, other = bench.block((0, 0, 0), (60, 48, 12)), bench.block((60, 0, 0), (60, 48, 12))
    tails = [bench.profile([(60, y + 4, 0), (72.5, y + 1.5, 0), (72.5, y + 14.5, 0), (60, y + 12, 0)], along=(0, 0, 12)) for y in (0, 16, 32)]
    sockets = [bench.copy(tail).solid for tail in tails]
    other = bench.subtract(other, sockets)
    part = bench.union([board, *tails])
    bench.move(other, (25, 0, 0))
    return [part, other]


def dovetail_by_hand():
    tails = 3 * Fraction(8 + 13, 2) * Fraction(25, 2) * 12
    return [60 * 48 * 12 + tails, 60 * 48 * 12 - tails]


def house(bench):
    """Walls with a door and two windows, a gable roof, and a chimney that goes through its slope."""
    walls = bench.block((0, 0, 0), (10_400, 8_200, 2_700))
    bench.hole(walls.top, bench.sketch(walls.top).rectangle((300, 300), (9_800, 7_600)))
    front = bench.faces(plane=-Plane(y=0)).one()
    sketch = bench.sketch(front, origin=(0, 0, 0), right=(1, 0, 0))
    bench.notch(front, sketch.rectangle((4_700, 0), (1_010, 2_010)), 300)
    for x in (1_200, 7_200):
        bench.notch(front, sketch.rectangle((x, 900), (2_000, 1_250)), 300)
    roof = bench.profile([(-400, -500, 2_700), (-400, 8_700, 2_700), (-400, 4_100, 6_150)], along=(11_200, 0, 0))
    chimney = bench.block((3_000, 5_300, 3_000), (600, 800, 4_000))
    return [bench.union([walls, roof, chimney])]


def house_by_hand():
    walls = 10_400 * 8_200 * 2_700 - 9_800 * 7_600 * 2_700 - 300 * (1_010 * 2_010 + 2 * 2_000 * 1_250)
    # (the roof falls by 3 for each 4: over the middle of the chimney it is as high as over all of it)
    over = 600 * 800 * (7_000 - (6_150 - Fraction(3, 4) * (5_700 - 4_100)))
    return [walls + 9_200 * 3_450 // 2 * 11_200 + over]


def mould(bench):
    """Half a mould: a block without a part that tapers, and with four holes for dowels."""
    block = bench.block((0, 0, 0), (100, 60, 30))
    part = bench.profile([(20, 15, 30), (20, 45, 30), (80, 45, 30), (80, 15, 30)],
                         top=[(25, 20, 11.5), (25, 40, 11.5), (75, 40, 11.5), (75, 20, 11.5)])
    made = bench.subtract(block, [part])
    top = bench.faces(plane=Plane(z=30)).one()
    for x in (8, 92):
        for y in (8, 52):
            bench.drill(top, (x, y, 30), diameter=6.2, circle='area', depth=12.5)
    return [made]


def mould_by_hand():
    return [100 * 60 * 30 - 18.5 / 6 * (60 * 30 + 4 * 55 * 25 + 50 * 20) - 4 * pi * 3.1 ** 2 * 12.5]


class Parts(unittest.TestCase):
    """Each part is compared with what its volume is by hand."""

    def test_a_bracket(self):
        self.compare(bracket, bracket_by_hand(), (60, 40, 50))

    def test_a_gear(self):
        self.compare(gear, gear_by_hand(), None)

    def test_a_dovetail(self):
        self.compare(dovetail, dovetail_by_hand(), (Fraction(145, 2), 48, 12))

    def test_a_house(self):
        self.compare(house, house_by_hand(), (11_200, 9_200, 7_000))

    def test_a_mould(self):
        self.compare(mould, mould_by_hand(), (100, 60, 30))

    def compare(self, make, by_hand, sizes):
        """The volumes are those by hand, exactly where these are, else within a thousandth, and each form keeps them."""
        bench, folder = bench_and_folder(self, THOUSANDTH)
        solids = make(bench)
        self.assertEqual(list(map(int, bench.solids())), sorted(solids))
        for solid, wanted in zip(solids, by_hand):
            if isinstance(wanted, float):
                self.assertLess(abs(float(bench.volume(solid)) / wanted - 1), 0.001)
            else:
                self.assertEqual(bench.volume(solid), wanted)
        if sizes:
            self.assertEqual(bench.bounding_box(solids[0]).sizes, sizes)
        for form in FORMS:
            with self.subTest(form), Workbench(library()) as again, warnings.catch_warnings():
                warnings.simplefilter('ignore')    # (of solids that touch)
                bench.export(folder / f'part{form}')
                made = again.import_file(folder / f'part{form}')
                self.assertEqual((made.moved, sum(map(again.volume, again.solids()))), (0, sum(map(bench.volume, bench.solids()))))
